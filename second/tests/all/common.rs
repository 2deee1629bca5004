//! Helpers shared by the tests.

use second::{Answer, Campaign, Day, Stream};

/// Splitmix64, for repeatable random tests.
pub struct Random(pub u64);

impl Random {
    pub fn next(&mut self) -> u64 {
        self.0 = self.0.wrapping_add(0x9E37_79B9_7F4A_7C15);
        let mut z = self.0;
        z = (z ^ (z >> 30)).wrapping_mul(0xBF58_476D_1CE4_E5B9);
        z = (z ^ (z >> 27)).wrapping_mul(0x94D0_49BB_1331_11EB);
        z ^ (z >> 31)
    }

    /// A number below `bound`.
    pub fn below(&mut self, bound: u64) -> u64 {
        self.next() % bound
    }

    /// A number from `low` to `high`.
    pub fn within(&mut self, low: u64, high: u64) -> u64 {
        low + self.below(high - low + 1)
    }

    pub fn pick<T: Copy>(&mut self, choices: &[T]) -> T {
        choices[self.below(choices.len() as u64) as usize]
    }

    /// A number of random magnitude at most `max`, often at an edge.
    pub fn edged(&mut self, max: u64) -> u64 {
        match self.below(6) {
            0 => 0,
            1 => 1.min(max),
            2 => max,
            3 => max - 1,
            _ => (self.next() >> self.below(64)).min(max),
        }
    }
}

/// The state handed back by an accepted call that answers `Ok`.
pub fn ok((day, answer): (Day, Answer)) -> Day {
    assert_eq!(answer, Answer::Ok);
    day
}

/// A plan being filled.
pub fn filling(depth: u64, width: u64, campaigns: &[(u64, u64)]) -> Day {
    let opened = ok(Day::blank().open(depth, width));
    campaigns
        .iter()
        .fold(opened, |day, &(price, budget)| ok(day.add(price, budget)))
}

/// A started day.
pub fn running(depth: u64, width: u64, campaigns: &[(u64, u64)]) -> Day {
    ok(filling(depth, width, campaigns).start())
}

/// The greatest depth that a width allows.
pub fn max_depth(width: u64) -> u64 {
    (1..=32).rev().find(|&k| fits(width, k)).unwrap()
}

fn fits(width: u64, depth: u64) -> bool {
    let power = (0..depth).fold(1u128, |p, _| p.saturating_mul(u128::from(width)));
    power <= 1 << 32
}

pub fn play(campaign: u64, paid: u64) -> Answer {
    Answer::Play { campaign, paid }
}

pub fn entry(price: u64, budget: u64, counts: [u64; 4]) -> Campaign {
    let [plays, turns, age, named] = counts;
    Campaign {
        price,
        budget,
        plays,
        turns,
        age,
        named,
    }
}

/// The most that an allotment of these views takes, by trying each; a campaign
/// that is struck out has no plays left.
pub fn best_allotment(views: &[u64], prices: &[u64], plays_left: &mut [u64]) -> u64 {
    let Some((&view, rest)) = views.split_first() else {
        return 0;
    };
    let mut best = best_allotment(rest, prices, plays_left);
    for i in 0..prices.len() {
        if view >> i & 1 == 1 && plays_left[i] > 0 {
            plays_left[i] -= 1;
            best = best.max(prices[i] + best_allotment(rest, prices, plays_left));
            plays_left[i] += 1;
        }
    }
    best
}

/// All answers to an input given at once.
pub fn answers(input: &[u8]) -> Vec<u8> {
    answers_in_pieces(input, input.len().max(1))
}

/// All answers to an input given in pieces of one size.
pub fn answers_in_pieces(input: &[u8], size: usize) -> Vec<u8> {
    let mut stream = Stream::new();
    let mut out = Vec::new();
    for piece in input.chunks(size) {
        stream.feed(piece, &mut out);
    }
    stream.finish(&mut out);
    out
}

pub const LISTING: &str = "\
(plan (depth 2) (width 2))
(campaign (price 5) (budget 10))
(campaign (price 3) (budget 6))
(start)
(view 0 1)
(view 0 1)
(view 0 1)
(view 0)
(view 1)
(view 2)
(close)
";

pub const LISTING_ANSWERS: &str = "\
(ok)
(ok)
(ok)
(ok)
(play 0 (paid 5))
(play 1 (paid 3))
(play 0 (paid 5))
(nobody)
(play 1 (paid 3))
(refused 13)
(closed (takings 16) (claim 48) (full 64))
(tally 0 (plays 2) (turns 2) (age 0) (named 4))
(tally 1 (plays 2) (turns 2) (age 0) (named 4))
";
