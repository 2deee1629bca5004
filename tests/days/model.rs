//! The documents' answers in exact whole numbers, by neither program: what both get wrong alike differs from them.

use crate::state::{members, naming, set_of, Call, Campaign, Phase, State};

/// The greatest number of an input form: twelve digits.
const MOST_NUMERAL: u64 = 999_999_999_999;

/// The lines of an input; a last one without byte 10 counts if it has bytes.
pub fn lines(input: &[u8]) -> impl Iterator<Item = &[u8]> {
    input.split_inclusive(|b| *b == 10).map(|line| line.strip_suffix(b"\n").unwrap_or(line))
}

/// The whole output for an input.
pub fn output(input: &[u8]) -> Vec<u8> {
    let mut state = State::blank();
    lines(input).flat_map(|line| state.answer(line).into_bytes()).collect()
}

/// The call of a line, or the number of its refusal. A form has one text for its numbers: a line that is one is the
/// text of its own numbers.
pub fn read(line: &[u8]) -> Result<Call, u64> {
    if line.len() > 200 {
        return Err(16);
    }
    let text = std::str::from_utf8(line).map_err(|_| 17u64)?;
    let digits = text.split(|c: char| !c.is_ascii_digit()).filter(|n| !n.is_empty());
    let numbers: Vec<u64> = digits.map(|n| n.parse().unwrap_or(u64::MAX)).collect();
    let word = text.trim_start_matches('(').split([' ', ')']).next().unwrap_or("");
    let call = match (word, &numbers[..]) {
        ("plan", &[depth, width]) => Call::Plan(depth, width),
        ("campaign", &[price, budget]) => Call::Campaign(price, budget),
        ("start", []) => Call::Start,
        ("view", names) if names.iter().all(|n| *n < 64) => Call::View(set_of(names.iter().map(|n| *n as usize))),
        ("pause", &[n]) if n < 64 => Call::Pause(n),
        ("resume", &[n]) if n < 64 => Call::Resume(n),
        ("close", []) => Call::Close,
        _ => return Err(17),
    };
    let is_form = call.line() == text && numbers.iter().all(|n| *n <= MOST_NUMERAL);
    is_form.then_some(call).ok_or(17)
}

impl State {
    /// W(age) = d^age × (d − 1)^(k − age); 0^0 is 1.
    fn weight(&self, age: u64) -> u128 {
        let (d, k, age) = (u128::from(self.width), self.depth as u32, age as u32);
        d.pow(age) * (d - 1).pow(k - age)
    }

    pub fn score(&self, i: usize) -> u128 {
        u128::from(self.campaigns[i].price) * self.weight(self.campaigns[i].age)
    }

    /// The campaigns of a set that can pay.
    pub fn able(&self, set: u64) -> Vec<usize> {
        members(set).filter(|i| self.campaigns[*i].can_pay()).collect()
    }

    /// Rule 1: nobody has a greater score, and nobody with a lower number as great a one.
    pub fn player(&self, set: u64) -> Option<usize> {
        let able = self.able(set);
        let top = able.iter().map(|i| self.score(*i)).max()?;
        able.into_iter().find(|i| self.score(*i) == top)
    }

    /// Rules 2 to 4, of the names that are not paused; the player's number and price.
    fn view(&mut self, set: u64) -> Option<(usize, u64)> {
        let set = self.unpaused(set);
        let (player, able) = (self.player(set), self.able(set));
        for i in able {
            let c = &mut self.campaigns[i];
            let plays = player == Some(i);
            let ended = plays || c.age + 1 == self.depth;
            c.plays += u64::from(plays);
            c.turns += u64::from(ended);
            c.age = if ended { 0 } else { c.age + 1 };
        }
        self.views.push(set);
        player.map(|i| (i, self.campaigns[i].price))
    }

    pub fn takings(&self) -> u128 {
        self.campaigns.iter().map(|c| u128::from(c.price) * u128::from(c.plays)).sum()
    }

    fn claim(&self) -> u128 {
        let turn = self.weight(self.depth) - self.weight(0);
        let waited = |c: &Campaign| self.weight(c.age) - self.weight(0);
        self.campaigns.iter().map(|c| u128::from(c.price) * (u128::from(c.turns) * turn + waited(c))).sum()
    }

    /// Whether the takings reach the floor of a day with these views: the share of price × the smaller of whole plays
    /// and named / depth, summed over campaigns.
    pub fn floor(&self, views: &[u64]) -> bool {
        let share = self.weight(self.depth) - self.weight(0);
        let due = |(i, c): (usize, &Campaign)| c.price * (c.budget / c.price).min(naming(views, i) / self.depth);
        let due: u64 = self.campaigns.iter().enumerate().map(due).sum();
        share * u128::from(due) <= self.weight(self.depth) * self.takings()
    }

    /// The closing line and the tallies.
    fn closing(&self) -> String {
        let (takings, claim) = (self.takings(), self.claim());
        let full = self.weight(self.depth) * takings;
        let tally = |(i, c): (usize, &Campaign)| {
            let (Campaign { plays, turns, age, .. }, named) = (c, self.named(i));
            format!("(tally {i} (plays {plays}) (turns {turns}) (age {age}) (named {named}))\n")
        };
        let tallies: String = self.campaigns.iter().enumerate().map(tally).collect();
        format!("(closed (takings {takings}) (claim {claim}) (full {full}))\n{tallies}")
    }

    /// What an accepted call answers, and the state after it.
    fn accept(&mut self, call: Call) -> String {
        match call {
            Call::Plan(depth, width) => *self = State { phase: Phase::Filling, depth, width, ..State::blank() },
            Call::Campaign(price, budget) => self.campaigns.push(Campaign { price, budget, ..Campaign::default() }),
            Call::Start => self.phase = Phase::Running,
            Call::View(set) => {
                let played = self.view(set);
                return played.map_or("(nobody)\n".into(), |(i, paid)| format!("(play {i} (paid {paid}))\n"));
            }
            Call::Pause(n) => self.campaigns[n as usize].paused = true,
            Call::Resume(n) => self.campaigns[n as usize].paused = false,
            Call::Close => {
                self.phase = Phase::Closed;
                return self.closing();
            }
        }
        "(ok)\n".into()
    }

    /// The answer to a line, and the state after it.
    pub fn answer(&mut self, line: &[u8]) -> String {
        let first_no = |call| self.failed(call).first().map_or(Ok(call), |number| Err(*number));
        match read(line).and_then(first_no) {
            Ok(call) => self.accept(call),
            Err(number) => format!("(refused {number})\n"),
        }
    }
}
