//! The same day in plain Rust, changed in place: the work of `view` that the documents ask for, with the soundness of
//! the whole state at each view. Powers are a static table, a soundness test ends at the first fault, and no sum can
//! overflow.

use crate::checksum::fold;

const CAMPAIGNS: usize = 64;
const MAX_POWER: u64 = 1 << 32;

/// `POWERS[b][e]` is b to the power e, or 0 where that is above 2^32.
static POWERS: [[u64; 33]; 17] = powers();

const fn powers() -> [[u64; 33]; 17] {
    let mut table = [[0; 33]; 17];
    let mut base = 0;
    while base < 17 {
        let mut value = 1;
        let mut e = 0;
        while e < 33 && value <= MAX_POWER {
            table[base][e] = value;
            value *= base as u64;
            e += 1;
        }
        base += 1;
    }
    table
}

#[derive(Clone, Copy, PartialEq)]
enum Phase {
    Filling,
    Running,
    #[allow(dead_code)]
    Closed(u64),
}

#[derive(Clone, Copy, Default, PartialEq)]
struct Campaign {
    price: u32,
    budget: u32,
    plays: u16,
    turns: u16,
    age: u16,
    named: u16,
}

impl Campaign {
    fn can_pay(&self) -> bool {
        u64::from(self.price) * (u64::from(self.plays) + 1) <= u64::from(self.budget)
    }

    fn is_sound(&self, depth: u64, accepted: u64) -> bool {
        (1..=1_000_000).contains(&self.price)
            && (self.price..=2_000_000_000).contains(&self.budget)
            && u64::from(self.age) < depth
            && u64::from(self.price) * u64::from(self.plays) <= u64::from(self.budget)
            && self.plays <= self.turns
            && self.turns <= self.named
            && u64::from(self.named) <= accepted
    }

    fn is_untouched(&self) -> bool {
        self.plays | self.turns | self.age | self.named == 0
    }
}

pub enum Answer {
    Refused(u64),
    Played(u64, u64),
    Nobody,
}

pub struct Day {
    phase: Phase,
    depth: u64,
    width: u64,
    count: u64,
    accepted: u64,
    paused: u64,
    campaigns: [Campaign; CAMPAIGNS],
}

impl Day {
    pub fn start(depth: u64, width: u64, terms: &[u64]) -> Day {
        let mut campaigns = [Campaign::default(); CAMPAIGNS];
        for (c, pair) in campaigns.iter_mut().zip(terms.chunks_exact(2)) {
            (c.price, c.budget) = (pair[0] as u32, pair[1] as u32);
        }
        Day {
            phase: Phase::Running,
            depth,
            width,
            count: terms.len() as u64 / 2,
            accepted: 0,
            paused: 0,
            campaigns,
        }
    }

    fn weight(&self, age: u64) -> u64 {
        POWERS[self.width as usize][age as usize]
            * POWERS[self.width as usize - 1][(self.depth - age) as usize]
    }

    fn is_sound(&self) -> bool {
        let plan = (1..=32).contains(&self.depth)
            && (1..=16).contains(&self.width)
            && POWERS[self.width as usize][self.depth as usize] != 0;
        if !plan || self.count > CAMPAIGNS as u64 || self.accepted > 4_096 {
            return false;
        }
        if self.phase == Phase::Filling && self.paused != 0 || self.beyond(self.paused) {
            return false;
        }
        let (planned, rest) = self.campaigns.split_at(self.count as usize);
        let low = self.weight(0);
        let (mut budgets, mut takings, mut turned, mut waited) = (0, 0, 0, 0);
        for c in planned {
            if !c.is_sound(self.depth, self.accepted) {
                return false;
            }
            if self.phase == Phase::Filling && !c.is_untouched() {
                return false;
            }
            let price = u64::from(c.price);
            budgets += u64::from(c.budget);
            takings += price * u64::from(c.plays);
            turned += price * u64::from(c.turns);
            waited += price * (self.weight(u64::from(c.age)) - low);
        }
        if budgets > 2_000_000_000 || rest.iter().any(|c| *c != Campaign::default()) {
            return false;
        }
        let held = match self.phase {
            Phase::Filling => self.accepted == 0,
            Phase::Running => true,
            Phase::Closed(held) => held == takings,
        };
        let high = POWERS[self.width as usize][self.depth as usize];
        let full = high * takings;
        held && turned
            .checked_mul(high - low)
            .and_then(|claim| claim.checked_add(waited))
            .is_some_and(|claim| claim <= full)
    }

    /// Whether a set has a number that is not in the plan.
    fn beyond(&self, set: u64) -> bool {
        self.count < 64 && set >> self.count != 0
    }

    fn question(&self, set: u64) -> u64 {
        if !self.is_sound() {
            return 1;
        }
        if self.phase != Phase::Running {
            return 11;
        }
        if self.accepted >= 4_096 {
            return 12;
        }
        if self.beyond(set) {
            return 13;
        }
        if u64::from((set & !self.paused).count_ones()) > self.width {
            return 14;
        }
        0
    }

    fn choose(&self, set: u64) -> Option<usize> {
        let mut best: Option<(usize, u64)> = None;
        let mut rest = set;
        while rest != 0 {
            let i = rest.trailing_zeros() as usize;
            rest &= rest - 1;
            let c = &self.campaigns[i];
            if c.can_pay() {
                let score = u64::from(c.price) * self.weight(u64::from(c.age));
                if best.is_none_or(|(_, top)| top < score) {
                    best = Some((i, score));
                }
            }
        }
        best.map(|(i, _)| i)
    }

    pub fn view(&mut self, set: u64) -> Answer {
        let question = self.question(set);
        if question != 0 {
            return Answer::Refused(question);
        }
        let found = set & !self.paused;
        let player = self.choose(found);
        let mut rest = found;
        while rest != 0 {
            let i = rest.trailing_zeros() as usize;
            rest &= rest - 1;
            let c = &mut self.campaigns[i];
            c.named += 1;
            if player == Some(i) {
                (c.plays, c.turns, c.age) = (c.plays + 1, c.turns + 1, 0);
            } else if c.can_pay() {
                c.age += 1;
                if u64::from(c.age) == self.depth {
                    (c.turns, c.age) = (c.turns + 1, 0);
                }
            }
        }
        self.accepted += 1;
        match player {
            Some(i) => Answer::Played(i as u64, u64::from(self.campaigns[i].price)),
            None => Answer::Nobody,
        }
    }

    pub fn fold_counts(&self, sum: u64) -> u64 {
        self.campaigns.iter().fold(sum, |sum, c| {
            [c.plays, c.turns, c.age, c.named]
                .iter()
                .fold(sum, |sum, &n| fold(sum, u64::from(n)))
        })
    }
}
