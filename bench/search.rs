//! The search and the check of what a day could have earned, through the library, beside plain Rust of the same method,
//! on 64 campaigns with 256 views of the kinds in `tests/search/inputs.rs`. A figure is the mean over ten inputs of the
//! least of thirty runs, in microseconds; a ratio is plain Rust's time over the library's.

#[path = "../tests/search/inputs.rs"]
mod inputs;
#[path = "../tests/states/random.rs"]
mod random;

use inputs::{Input, Kind, TIMED};
use random::Random;
use std::time::Instant;

extern "C" {
    fn wezghuli_search(
        head: *const u64,
        terms: *const u32,
        counts: *const u16,
        views: *const u64,
        views_len: usize,
        allotment: *mut u64,
        allotment_len: usize,
        surplus: *mut u64,
        surplus_len: usize,
        worth: *mut u64,
        worth_len: usize,
    ) -> u64;
    fn wezghuli_check(
        head: *const u64,
        terms: *const u32,
        counts: *const u16,
        views: *const u64,
        views_len: usize,
        allotment: *const u64,
        allotment_len: usize,
        surplus: *const u64,
        surplus_len: usize,
        worth: *const u64,
        worth_len: usize,
    ) -> u64;
}

const INPUTS: u64 = 10;
const RUNS: u64 = 30;

/// A plan in Filling with depth 1 and width 1, and its views.
struct Lent {
    head: [u64; 7],
    terms: [u32; 128],
    counts: [u16; 256],
    views: Vec<u64>,
}

/// The same for plain Rust.
struct Plain {
    prices: [u32; 64],
    plays: [u32; 64],
    views: Vec<u64>,
}

#[derive(Clone)]
struct Triple {
    allotment: [u64; 256],
    surplus: [u64; 64],
    worth: [u64; 256],
}

fn lent(input: &Input) -> Lent {
    let mut terms = [0; 128];
    for (i, (price, plays)) in input.prices.iter().zip(&input.plays).enumerate() {
        (terms[i], terms[64 + i]) = (*price as u32, (price * plays) as u32);
    }
    let head = [0, 0, 1, 1, input.prices.len() as u64, 0, 0];
    Lent { head, terms, counts: [0; 256], views: input.views.clone() }
}

fn plain(input: &Input) -> Plain {
    let column = |of: &[u64]| std::array::from_fn(|i| of[i] as u32);
    Plain { prices: column(&input.prices), plays: column(&input.plays), views: input.views.clone() }
}

impl Lent {
    fn search(&self, found: &mut Triple) -> u64 {
        let Triple { allotment, surplus, worth } = found;
        unsafe {
            wezghuli_search(
                self.head.as_ptr(),
                self.terms.as_ptr(),
                self.counts.as_ptr(),
                self.views.as_ptr(),
                self.views.len(),
                allotment.as_mut_ptr(),
                allotment.len(),
                surplus.as_mut_ptr(),
                surplus.len(),
                worth.as_mut_ptr(),
                worth.len(),
            )
        }
    }

    fn check(&self, found: &Triple) -> u64 {
        let Triple { allotment, surplus, worth } = found;
        unsafe {
            wezghuli_check(
                self.head.as_ptr(),
                self.terms.as_ptr(),
                self.counts.as_ptr(),
                self.views.as_ptr(),
                self.views.len(),
                allotment.as_ptr(),
                allotment.len(),
                surplus.as_ptr(),
                surplus.len(),
                worth.as_ptr(),
                worth.len(),
            )
        }
    }
}

impl Plain {
    fn free_view(&self, to: &[u64], campaign: u64, from: usize) -> usize {
        for j in from..self.views.len() {
            if to[j] == 64 && (self.views[j] >> campaign) & 1 == 1 {
                return j;
            }
        }
        self.views.len()
    }

    /// One more view for a campaign: whether there is one, the campaigns visited, and those that no free view names.
    fn seek(&self, to: &mut [u64], campaign: u64, visited: u64, from: usize, bare: u64) -> (bool, u64, u64) {
        let (mut seen, mut bare) = (visited, bare);
        if (bare >> campaign) & 1 == 0 {
            let free = self.free_view(to, campaign, from);
            if free < self.views.len() {
                to[free] = campaign;
                return (true, seen, bare);
            }
            bare |= 1 << campaign;
        }
        seen |= 1 << campaign;
        for j in 0..self.views.len() {
            if (self.views[j] >> campaign) & 1 == 1 && (seen >> to[j]) & 1 == 0 {
                let found;
                (found, seen, bare) = self.seek(to, to[j], seen, from, bare);
                if found {
                    to[j] = campaign;
                    return (true, seen, bare);
                }
            }
        }
        (false, seen, bare)
    }

    /// The campaigns closed after a campaign was served.
    fn serve(&self, to: &mut [u64], campaign: usize, closed: u64, first: &mut usize, bare: &mut u64) -> u64 {
        for _ in 0..self.plays[campaign] {
            while *first < self.views.len() && to[*first] != 64 {
                *first += 1;
            }
            let (found, seen, after) = self.seek(to, campaign as u64, closed, *first, *bare);
            *bare = after;
            if !found {
                return seen;
            }
        }
        closed
    }

    /// The dearest of the campaigns of a set, the lowest such.
    fn dearest(&self, unserved: u64) -> usize {
        let mut best = unserved.trailing_zeros() as usize;
        let mut left = unserved & (unserved - 1);
        while left != 0 {
            let i = left.trailing_zeros() as usize;
            if self.prices[best] < self.prices[i] {
                best = i;
            }
            left &= left - 1;
        }
        best
    }

    fn search(&self, found: &mut Triple) {
        found.allotment.fill(64);
        let (mut level, mut first, mut bare) = ([0; 64], 0, 0u64);
        let (mut closed, mut unserved) = (0u64, u64::MAX);
        while unserved != 0 {
            let campaign = self.dearest(unserved);
            let next = self.serve(&mut found.allotment, campaign, closed, &mut first, &mut bare);
            let mut new = next & !closed;
            while new != 0 {
                level[new.trailing_zeros() as usize] = u64::from(self.prices[campaign]);
                new &= new - 1;
            }
            closed = next;
            unserved &= !(1 << campaign);
        }
        for i in 0..64 {
            found.surplus[i] = u64::from(self.prices[i]) - level[i];
        }
        for j in 0..self.views.len() {
            let holder = found.allotment[j];
            found.worth[j] = if holder < 64 { level[holder as usize] } else { 0 };
        }
    }
}

/// The least time of some runs, in microseconds.
fn least(mut run: impl FnMut()) -> f64 {
    let times = (0..RUNS).map(|_| {
        let begun = Instant::now();
        run();
        begun.elapsed().as_secs_f64() * 1e6
    });
    times.fold(f64::MAX, f64::min)
}

/// The library's search, plain Rust's and the library's check; what both find is accepted.
fn times(input: &Input) -> [f64; 3] {
    let (lent, plain) = (lent(input), plain(input));
    let mut ours = Triple { allotment: [0; 256], surplus: [0; 64], worth: [0; 256] };
    let mut theirs = ours.clone();
    let search = least(|| assert_eq!(lent.search(&mut ours), 0));
    let same = least(|| plain.search(&mut theirs));
    let check = least(|| assert_eq!(lent.check(&ours), 0));
    assert_eq!(lent.check(&theirs), 0, "what plain Rust finds is accepted");
    [search, same, check]
}

fn row((name, make): Kind) {
    let all: Vec<_> = (1..=INPUTS).map(|seed| times(&make(&mut Random::new(seed)))).collect();
    let [search, plain, check] = [0, 1, 2].map(|i| all.iter().map(|times| times[i]).sum::<f64>() / INPUTS as f64);
    let slowest = all.iter().map(|times| times[0]).fold(0.0, f64::max);
    let ratio = plain / search;
    println!("{name:24}{search:10.1} ({slowest:8.1}) {plain:10.1} {ratio:8.2} {check:8.1}");
}

fn main() {
    println!("{:24}{:>10} {:>10} {:>10} {:>8} {:>8}", "", "search", "(slowest)", "plain Rust", "ratio", "check");
    TIMED.into_iter().for_each(row);
}
