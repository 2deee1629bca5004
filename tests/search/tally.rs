//! What was compared. A difference ends the test.

use crate::product::{STATUS_ACCEPTED, STATUS_NO_FIT};
use crate::seen::Seen;
use crate::sides::{Case, Triple, SIDES};
use second::day::Day;

/// What both sides found: takings that are the same, and a triple of each.
pub struct Found {
    pub takings: u128,
    pub triples: [Triple; 2],
}

pub struct Tally {
    pub passed: u64,
    pub seen: Seen,
}

impl Tally {
    pub fn new() -> Tally {
        Tally { passed: 0, seen: Seen::new() }
    }

    pub fn fail(&self, what: &str) -> ! {
        println!("{what}");
        println!("{} passed, 1 failed", self.passed);
        std::process::exit(1)
    }

    pub fn differ(&self, case: &Case, triple: &Triple, what: &str) -> ! {
        let planned: Vec<_> = case.day.campaigns[..case.campaigns()].iter().map(|c| (c.price, c.budget)).collect();
        println!("state: {:?}", case.day);
        println!("prices with budgets: {planned:?}\nviews: {:x?}\n{triple:?}", case.views);
        self.fail(what)
    }

    /// A state that the library can hold.
    pub fn case(&self, day: Day, views: &[u64]) -> Case {
        Case::new(day, views.to_vec()).unwrap_or_else(|| self.fail("a state that the library's arrays cannot hold"))
    }

    /// Both searches, with these entries lent: the takings and the triples, or the number of the question.
    pub fn search(&mut self, case: &Case, lent: &Triple) -> Result<Found, u64> {
        let mut triples = [lent.clone(), lent.clone()];
        let answers = [0, 1].map(|i| case.search(SIDES[i], &mut triples[i]));
        if answers[0] != answers[1] {
            self.differ(
                case,
                &triples[0],
                &format!("the product answers {:?}, the second {:?}", answers[0], answers[1]),
            );
        }
        self.passed += 1;
        if let Err(question) = answers[0] {
            self.refused(case, lent, &triples, question);
        }
        let takings = answers[0]?;
        for triple in &triples {
            if triple.beyond(case) != lent.beyond(case) {
                self.differ(case, triple, "entries beyond were written");
            }
            self.accepted(case, triple);
        }
        Ok(Found { takings, triples })
    }

    /// A refusal leaves what was lent, and both checks give the same number.
    fn refused(&mut self, case: &Case, lent: &Triple, triples: &[Triple; 2], question: u64) {
        for (side, triple) in SIDES.into_iter().zip(triples) {
            if triple != lent {
                self.differ(case, triple, &format!("{side:?} wrote, and refused {question}"));
            }
            let checked = case.check(side, lent);
            if checked != question {
                self.differ(case, lent, &format!("{side:?} searched with {question}, and checked with {checked}"));
            }
        }
        self.seen.see(&format!("refused {question}"));
    }

    /// Both checks have this status.
    pub fn checked(&mut self, case: &Case, triple: &Triple, due: u64) {
        let found = SIDES.map(|side| case.check(side, triple));
        if found != [due; 2] {
            self.differ(case, triple, &format!("checked with {found:?}, not with {due}"));
        }
        self.passed += 1;
    }

    /// Both searches of an input that no question refuses.
    pub fn taken(&mut self, case: &Case, lent: &Triple) -> Found {
        match self.search(case, lent) {
            Ok(found) => found,
            Err(question) => self.differ(case, lent, &format!("refused {question}")),
        }
    }

    /// What both checks say of a triple that no question refuses.
    pub fn verdict(&mut self, case: &Case, triple: &Triple) -> &'static str {
        let [ours, theirs] = SIDES.map(|side| case.check(side, triple));
        if ours != theirs {
            self.differ(case, triple, &format!("the product's check says {ours}, the second's {theirs}"));
        }
        self.passed += 1;
        match ours {
            STATUS_ACCEPTED => "accepted",
            STATUS_NO_FIT => "rejected",
            question => self.differ(case, triple, &format!("the check is refused {question}")),
        }
    }

    pub fn accepted(&mut self, case: &Case, triple: &Triple) {
        if self.verdict(case, triple) != "accepted" {
            self.differ(case, triple, "what was found is rejected");
        }
    }

    pub fn rejected(&mut self, case: &Case, triple: &Triple, why: &str) {
        if self.verdict(case, triple) != "rejected" {
            self.differ(case, triple, &format!("accepted: {why}"));
        }
    }

    pub fn group(&mut self, name: &str, body: impl FnOnce(&mut Tally)) {
        let before = self.passed;
        body(self);
        println!("{name}: {} comparisons", self.passed - before);
    }

    /// Everything in the tables has been seen, or the test fails.
    pub fn end(&self, out: &str) {
        let file = format!("{out}/coverage");
        std::fs::write(&file, self.seen.report()).unwrap_or_else(|e| self.fail(&format!("{file}: {e}")));
        println!("{} cases, counted in {file}", self.seen.len());
        let unseen = self.seen.unseen();
        if !unseen.is_empty() {
            self.fail(&unseen.join("\n"));
        }
        println!("{} passed, 0 failed", self.passed);
    }
}
