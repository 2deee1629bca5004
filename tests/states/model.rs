//! The second program's model, seen as what is lent to the library.

use crate::library::Lent;
use second::day::{Answer, Day, Phase};

/// An operation with its arguments.
#[derive(Clone, Copy, Debug)]
pub struct Call {
    pub kind: u64,
    pub a: u64,
    pub b: u64,
}

pub fn call(kind: u64, a: u64, b: u64) -> Call {
    Call { kind, a, b }
}

/// Number of kinds of call: opening, adding, starting, a view, a tally, closing, pausing, resuming.
pub const KINDS: u64 = 8;

/// The state in the library's layout, or none where its arrays cannot hold it: 32 bits of money, 16 of a count.
pub fn lent(day: &Day) -> Option<Lent> {
    let (phase, takings) = match day.phase {
        Phase::Filling => (0, 0),
        Phase::Running => (1, 0),
        Phase::Closed(takings) => (2, takings),
    };
    let head = [phase, takings, day.depth, day.width, day.count, day.views, day.paused];
    let (mut terms, mut counts) = ([0; 128], [0; 256]);
    for (i, c) in day.campaigns.iter().enumerate() {
        for (column, value) in [c.price, c.budget].into_iter().enumerate() {
            terms[64 * column + i] = value.try_into().ok()?;
        }
        for (column, value) in [c.plays, c.turns, c.age, c.named].into_iter().enumerate() {
            counts[64 * column + i] = value.try_into().ok()?;
        }
    }
    Some(Lent::new(head, terms, counts))
}

/// What the model hands back: the status, and the lent memory afterwards.
pub fn outcome(day: &Day, call: Call) -> (u64, Lent) {
    let day = day.clone();
    let Call { kind, a, b } = call;
    let (next, answer) = match kind {
        0 => day.open(a, b),
        1 => day.add(a, b),
        2 => day.start(),
        3 => day.view(a),
        4 => day.tally(a),
        5 => day.close(),
        6 => day.pause(a),
        _ => day.resume(a),
    };
    let mut after = lent(&next).expect("a call of a state that fits hands back one that fits");
    after.answer = match answer {
        // a refusal leaves what was there
        Answer::Refused(_) => after.answer,
        Answer::Ok => [1, 0, 0, 0, 0],
        Answer::Play { campaign, paid } => [2, campaign, paid, 0, 0],
        Answer::Nobody => [3, 0, 0, 0, 0],
        Answer::Tally { campaign: _, plays, turns, age, named } => [4, plays, turns, age, named],
        Answer::Closed { takings, claim, full } => [5, takings, claim, full, 0],
    };
    let status = match answer {
        Answer::Refused(question) => question,
        _ => 0,
    };
    (status, after)
}
