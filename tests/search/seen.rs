//! What a run has seen. Everything in the tables must be seen, and nothing else can be.

use crate::inputs::{TIMED, UNTIMED};
use crate::{changes, triples};
use std::collections::BTreeMap;

const EVENTS: [&str; 22] = [
    "small, every allotment tried",
    "small, not all views given though all are named",
    "Filling",
    "Running",
    "Closed",
    "Running with marks",
    "Closed with marks",
    "plays counted",
    "a number of a state changed, taken",
    "a number of a state changed, refused 1",
    "no entry to lend",
    "entries as many as needed",
    "entries beyond",
    "allotment alone too short",
    "surplus alone too short",
    "worth alone too short",
    "refused 19: 257 views",
    "refused 19: more views",
    "refused 13: first",
    "refused 13: middle",
    "refused 13: last",
    "no head",
];

/// What becomes of an accepted triple that is changed. Another figure alone is never accepted: the sum is another.
const CHANGED: [&str; 5] = [
    "an entry changed, accepted",
    "an entry changed, rejected",
    "a figure a cent more or less, rejected",
    "a cent moved, accepted",
    "a cent moved, rejected",
];

/// The questions in their order.
pub const QUESTIONS: [u64; 4] = [1, 19, 13, 18];

/// The questions that fail at once, told by their bits.
pub fn failing(bits: usize) -> String {
    let failed = (0..QUESTIONS.len()).filter(|i| bits >> i & 1 == 1);
    format!("failing at once:{}", failed.map(|i| format!(" {}", QUESTIONS[i])).collect::<String>())
}

fn wanted() -> Vec<String> {
    let mut all: Vec<String> = EVENTS.iter().chain(&CHANGED).map(|e| e.to_string()).collect();
    all.extend(TIMED.iter().chain(&UNTIMED).map(|(name, _)| format!("kind: {name}")));
    all.extend((0..1 << QUESTIONS.len()).map(failing));
    all.extend(QUESTIONS.map(|question| format!("refused {question}")));
    all.extend((1..=64).map(|length| format!("chain of {length:2}")));
    all.extend(changes::FORGERIES.iter().map(|(name, _)| format!("forged: {name}")));
    for rule in triples::RULES {
        all.extend(["accepted", "rejected"].map(|verdict| format!("made by hand: {}, {verdict}", rule.name)));
    }
    all
}

pub struct Seen(BTreeMap<String, u64>);

impl Seen {
    pub fn new() -> Seen {
        Seen(wanted().into_iter().map(|what| (what, 0)).collect())
    }

    pub fn see(&mut self, what: &str) {
        *self.0.get_mut(what).unwrap_or_else(|| panic!("no table has '{what}'")) += 1;
    }

    pub fn see_if(&mut self, yes: bool, what: &str) {
        if yes {
            self.see(what);
        }
    }

    /// Further events that this run must see.
    pub fn want(&mut self, more: &[&str]) {
        self.0.extend(more.iter().map(|what| (what.to_string(), 0)));
    }

    pub fn report(&self) -> String {
        self.0.iter().map(|(what, times)| format!("{times:8} {what}\n")).collect()
    }

    pub fn len(&self) -> usize {
        self.0.len()
    }

    pub fn unseen(&self) -> Vec<String> {
        self.0.iter().filter(|(_, &times)| times == 0).map(|(what, _)| format!("not seen: {what}")).collect()
    }
}
