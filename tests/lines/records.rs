// The records of the second program, whose reader and writer are compared too.
use program::{Answer, Record};

pub fn record(r: &crate::second::Rec) -> Record {
    let [a, b, c, d, e] = r.numbers;
    Record::Output(match r.form {
        0 => return Record::Plan { depth: a, width: b },
        1 => return Record::Campaign { price: a, budget: b },
        2 => return Record::Start,
        3 => return Record::View(a),
        4 => return Record::Close,
        5 => Answer::Ok,
        6 => Answer::Play { campaign: a, paid: b },
        7 => Answer::Nobody,
        8 => Answer::Refused(a),
        9 => Answer::Closed { takings: a, claim: b, full: c },
        10 => Answer::Tally { campaign: a, plays: b, turns: c, age: d, named: e },
        11 => return Record::Pause(a),
        _ => return Record::Resume(a),
    })
}
