//! The program that prints a recorded day's takings beside the greatest.

use crate::common::{best_allotment, Random, LISTING};
use second::{lines, Answer, Day, Phase, Record};
use std::io::Write;
use std::process::{Command, Stdio};

/// What the program prints for an input.
fn printed(input: impl AsRef<[u8]>) -> String {
    let mut command = Command::new(env!("CARGO_BIN_EXE_second_greatest"));
    command.stdin(Stdio::piped()).stdout(Stdio::piped());
    let mut child = command.spawn().unwrap();
    let mut stdin = child.stdin.take().unwrap();
    stdin.write_all(input.as_ref()).unwrap();
    drop(stdin);
    let output = child.wait_with_output().unwrap();
    assert!(output.status.success());
    String::from_utf8(output.stdout).unwrap()
}

const NOTHING: &str = "(takings 0) (greatest 0) (ratio 1/1)\n";

/// One play at 3 and one at 2.
const TWO: &str = "(plan (depth 1) (width 2))\n(campaign (price 3) (budget 3))\n\
    (campaign (price 2) (budget 2))\n(start)\n";

#[test]
fn listing() {
    let whole = "(takings 16) (greatest 16) (ratio 1/1)\n";
    assert_eq!(printed(LISTING), whole);
    assert_eq!(printed(LISTING.trim_end()), whole);
    // A third play of campaign 1: campaign 0 should have waited for the fourth
    // view, which names it alone.
    let richer = LISTING.replace("(budget 6)", "(budget 9)");
    let expected = "(takings 16) (greatest 19) (ratio 16/19)\n";
    assert_eq!(printed(&richer), expected);
}

#[test]
fn nothing_earned() {
    assert_eq!(printed(""), NOTHING);
    assert_eq!(printed("\n\n(view 0)\nno form\n"), NOTHING);
    assert_eq!(printed("(plan (depth 1) (width 2))"), NOTHING);
    assert_eq!(printed(TWO.replace("(start)\n", "")), NOTHING);
    assert_eq!(printed(TWO), NOTHING);
    assert_eq!(printed(format!("{TWO}(view)\n(view)\n")), NOTHING);
    assert_eq!(printed(format!("{TWO}(close)\n")), NOTHING);
}

#[test]
fn any_phase_counts_alike() {
    // The first view goes to the dearer, which the second alone names.
    let missed = format!("{TWO}(view 0 1)\n(view 0)");
    let expected = "(takings 3) (greatest 5) (ratio 3/5)\n";
    assert_eq!(printed(&missed), expected);
    assert_eq!(printed(format!("{missed}\n(close)\n")), expected);
    // Refused views and refused openings leave the list as it is.
    let noise = "(view 1 2)\n(view 1 0)\n\n(plan (depth 0) (width 1))\n(start)\n(nobody)\n";
    let running = format!("{missed}\n(plan (depth 1) (width 1))\n{noise}");
    assert_eq!(printed(&running), expected);
    let closed = format!("{running}(close)\n(view 1)\n(close)\n{noise}");
    assert_eq!(printed(closed), expected);
    // An accepted opening begins another day.
    let next = format!("{missed}\n(close)\n{LISTING}");
    assert_eq!(printed(next), "(takings 16) (greatest 16) (ratio 1/1)\n");
    let opened = format!("{missed}\n(close)\n(plan (depth 1) (width 1))\n");
    assert_eq!(printed(opened), NOTHING);
}

#[test]
fn ratio_in_lowest_terms() {
    let doubled = TWO.replace("(price 3) (budget 3)", "(price 4) (budget 4)");
    let missed = format!("{doubled}(view 0 1)\n(view 0)\n");
    assert_eq!(printed(&missed), "(takings 4) (greatest 6) (ratio 2/3)\n");
    let more = format!("{missed}(view 1)\n");
    assert_eq!(printed(more), "(takings 6) (greatest 6) (ratio 1/1)\n");
    let dear = "(price 1000000) (budget 1000000000)";
    let day =
        format!("(plan (depth 1) (width 1))\n(campaign {dear})\n(start)\n(view 0)\n(view 0)\n");
    assert_eq!(
        printed(day),
        "(takings 2000000) (greatest 2000000) (ratio 1/1)\n"
    );
}

#[test]
fn paused_names_are_left_out() {
    // Campaign 1 could have had the first two views, had it not been paused.
    let day = format!("{TWO}(pause 1)\n(view 0 1)\n(view 1)\n(resume 1)\n(view 0)\n");
    assert_eq!(printed(&day), "(takings 3) (greatest 3) (ratio 1/1)\n");
    // A pause after the views takes nothing from them.
    let day = format!("{day}(view 1)\n(pause 0)\n(pause 1)\n");
    assert_eq!(printed(day), "(takings 5) (greatest 5) (ratio 1/1)\n");
    let later = format!("{TWO}(view 0 1)\n(pause 1)\n(view 0 1)\n");
    assert_eq!(printed(&later), "(takings 3) (greatest 5) (ratio 3/5)\n");
    assert_eq!(
        printed(format!("{later}(close)\n")),
        "(takings 3) (greatest 5) (ratio 3/5)\n"
    );
    // Refused pauses and resumes change nothing.
    let refused = format!("{TWO}(pause 2)\n(pause 64)\n(view 0 1)\n(view 0)\n");
    assert_eq!(printed(refused), "(takings 3) (greatest 5) (ratio 3/5)\n");
}

#[test]
fn at_most_256_views() {
    let three = "(takings 3) (greatest 3) (ratio 1/1)\n";
    let most = format!("{TWO}{}", "(view 0)\n".repeat(256));
    assert_eq!(printed(&most), three);
    assert_eq!(printed(format!("{most}(view 2)\n(view 0 0)\n")), three);
    // Views of nobody and of paused names are among them.
    for last in ["(view)", "(pause 1)\n(view 1)", "(view 1)\n(close)"] {
        assert_eq!(printed(format!("{most}{last}\n")), "(refused 19)\n");
    }
    let full = format!("{TWO}{}", "(view)\n".repeat(4_097));
    assert_eq!(printed(&full), "(refused 19)\n");
    // The next day is counted afresh.
    let next = format!("{full}(close)\n(plan (depth 1) (width 1))\n");
    assert_eq!(printed(&next), NOTHING);
    let next = format!("{full}(close)\n{most}");
    assert_eq!(printed(next), three);
}

/// Lines made up at random, with what they should lead to, kept by the
/// operations and by hand.
struct Recorded {
    input: Vec<u8>,
    day: Day,
    paused: u64,
    takings: u64,
    views: Vec<u64>,
}

impl Recorded {
    fn new() -> Recorded {
        Recorded {
            input: Vec::new(),
            day: Day::blank(),
            paused: 0,
            takings: 0,
            views: Vec::new(),
        }
    }

    /// A record that mostly fits the phase; few views, as all allotments of
    /// them are tried.
    fn record(&self, random: &mut Random) -> Record {
        let kind = match self.day.phase {
            _ if random.below(20) == 0 => random.below(8),
            Phase::Closed(_) => 0,
            Phase::Filling if self.day.count < 2 => 1,
            Phase::Filling => random.pick(&[1, 2, 2]),
            Phase::Running if self.views.len() > 6 => 4,
            Phase::Running => random.pick(&[3, 3, 3, 3, 3, 3, 4, 5, 6, 6]),
        };
        let n = random.below(self.day.count + 1).min(63);
        // The first is often dearer and often named alone, after being shared.
        let price = random.within(1, 9) + 6 / (self.day.count + 1);
        let sets = [1, 1, 0b11, 0b11, 1 << n, random.below(8)];
        match kind {
            0 => Record::Plan {
                depth: random.pick(&[0, 1, 1, 2, 3]),
                width: random.pick(&[1, 2, 2, 3]),
            },
            1 => Record::Campaign {
                price,
                budget: price * random.pick(&[1, 1, 2]) + random.below(price),
            },
            2 => Record::Start,
            3 => Record::View(random.pick(&sets)),
            4 => Record::Close,
            5 => Record::Pause(n),
            6 => Record::Resume(n),
            _ => Record::Output(Answer::Nobody),
        }
    }

    /// One line more.
    fn go_on(&mut self, random: &mut Random) {
        let record = self.record(random);
        lines::append(&record, &mut self.input).unwrap();
        let day = std::mem::replace(&mut self.day, Day::blank());
        let (day, answer) = match record {
            Record::Plan { depth, width } => day.open(depth, width),
            Record::Campaign { price, budget } => day.add(price, budget),
            Record::Start => day.start(),
            Record::View(set) => day.view(set),
            Record::Pause(n) => day.pause(n),
            Record::Resume(n) => day.resume(n),
            Record::Close => day.close(),
            Record::Output(_) => (day, Answer::Refused(17)),
        };
        self.day = day;
        self.note(record, answer);
    }

    /// Keeps marks, takings and views of accepted calls.
    fn note(&mut self, record: Record, answer: Answer) {
        match (record, answer) {
            (_, Answer::Refused(_)) => {}
            (Record::Plan { .. }, _) => {
                (self.paused, self.takings) = (0, 0);
                self.views.clear();
            }
            (Record::Pause(n), _) => self.paused |= 1 << n,
            (Record::Resume(n), _) => self.paused &= !(1 << n),
            (Record::View(set), answer) => {
                self.views.push(set & !self.paused);
                if let Answer::Play { paid, .. } = answer {
                    self.takings += paid;
                }
            }
            _ => {}
        }
    }

    /// The line to expect, with every allotment and every divisor tried.
    fn line(&self) -> String {
        let planned = &self.day.campaigns[..self.day.count as usize];
        let prices: Vec<u64> = planned.iter().map(|c| c.price).collect();
        let mut plays: Vec<u64> = planned.iter().map(|c| c.budget / c.price).collect();
        let (t, g) = (
            self.takings,
            best_allotment(&self.views, &prices, &mut plays),
        );
        let divisor = (1..=g).rev().find(|c| t % c == 0 && g % c == 0);
        let (a, b) = divisor.map_or((1, 1), |c| (t / c, g / c));
        format!("(takings {t}) (greatest {g}) (ratio {a}/{b})\n")
    }
}

#[test]
fn random_days() {
    let mut random = Random(65);
    let (mut whole, mut missed) = (0, 0);
    for _ in 0..1_000 {
        let mut recorded = Recorded::new();
        for _ in 0..random.within(1, 60) {
            recorded.go_on(&mut random);
        }
        let expected = recorded.line();
        let input = String::from_utf8(recorded.input).unwrap();
        assert_eq!(printed(&input), expected, "{input}");
        whole += u64::from(recorded.takings > 0 && expected.ends_with("(ratio 1/1)\n"));
        missed += u64::from(!expected.ends_with("(ratio 1/1)\n"));
    }
    assert!(whole > 100 && missed > 30, "{whole} {missed}");
}
