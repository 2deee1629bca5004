//! Times the product's page against plain Rust's on the same states, in one run, once both printed the same bytes. A
//! ratio is Rust's time over the product's.
mod plain_page;
use plain_page::{Campaign, Day};
use std::hint::black_box;
use std::time::Instant;

extern "C" {
    fn wezghuli_page(
        head: *const u64,
        terms: *const u32,
        counts: *const u16,
        out: *mut u8,
        out_len: usize,
        written: *mut u64,
    ) -> u64;
}

const ROUNDS: usize = 2_000;

struct Lent {
    head: [u64; 7],
    terms: [u32; 128],
    counts: [u16; 256],
}

fn next(seed: &mut u64) -> u64 {
    *seed ^= *seed << 13;
    *seed ^= *seed >> 7;
    *seed ^= *seed << 17;
    *seed
}

/// A running day of n campaigns at depth 2 and width 2, where a play is a turn of a longer claim than is taken: so
/// turns stay at plays and ages at 0. Figures are small, or as great as the limits allow.
fn day(n: usize, great: bool, seed: &mut u64) -> Day {
    let mut campaigns = [Campaign::default(); 64];
    let share = 2_000_000_000 / n.max(1) as u64;
    for c in campaigns.iter_mut().take(n) {
        let price = if great { share.min(1_000_000) } else { 1 + next(seed) % 500 };
        let whole = (share / price).min(4_096);
        let plays = if great { whole } else { next(seed) % whole.min(60) };
        *c = Campaign {
            price: price as u32,
            budget: share as u32,
            plays: plays as u16,
            turns: plays as u16,
            age: 0,
            named: (plays + next(seed) % (4_097 - plays)) as u16,
        };
    }
    // some are paused, which the page does not tell
    let paused = next(seed) & (u64::MAX >> (64 - n));
    Day { depth: 2, width: 2, count: n, accepted: 4_096, paused, campaigns }
}

fn lent(day: &Day) -> Lent {
    let mut l = Lent {
        head: [1, 0, u64::from(day.depth), day.width, day.count as u64, day.accepted, day.paused],
        terms: [0; 128],
        counts: [0; 256],
    };
    for (i, c) in day.campaigns.iter().enumerate() {
        (l.terms[i], l.terms[i + 64]) = (c.price, c.budget);
        (l.counts[i], l.counts[i + 64], l.counts[i + 128], l.counts[i + 192]) = (c.plays, c.turns, c.age, c.named);
    }
    l
}

fn page(l: &Lent, out: &mut [u8]) -> Result<usize, u64> {
    let mut length = 0;
    let (h, t, n) = (l.head.as_ptr(), l.terms.as_ptr(), l.counts.as_ptr());
    match unsafe { wezghuli_page(h, t, n, out.as_mut_ptr(), out.len(), &mut length) } {
        0 => Ok(length as usize),
        refused => Err(refused),
    }
}

/// Both print alike, into too short a buffer too, or nothing is timed.
fn same(name: &str, day: &Day, l: &Lent) {
    let whole = 41 * (day.count + 1);
    for room in [0, whole - 1, whole, whole + 9] {
        let (mut ours, mut rust) = (vec![7; room], vec![7; room]);
        let answers = (page(l, &mut ours), day.page(&mut rust));
        assert_eq!(answers.0, answers.1, "{name} into {room} bytes");
        assert_eq!(ours, rust, "{name} into {room} bytes");
        assert_eq!(answers.0.is_ok(), room >= whole, "{name} is sound");
    }
}

/// The least of several rounds, in nanoseconds; the two take turns.
fn race(name: &str, day: &Day) {
    let l = lent(day);
    same(name, day, &l);
    let (mut ours, mut rust) = (f64::MAX, f64::MAX);
    let (mut a, mut b) = ([0u8; 2_665], [0u8; 2_665]);
    for _ in 0..ROUNDS {
        let t = Instant::now();
        let _ = black_box(page(black_box(&l), &mut a));
        ours = ours.min(t.elapsed().as_nanos() as f64);
        let t = Instant::now();
        let _ = black_box(black_box(day).page(&mut b));
        rust = rust.min(t.elapsed().as_nanos() as f64);
    }
    println!("{name:28} {ours:7.0} ns   plain Rust {rust:7.0} ns   ratio {:.2}", rust / ours);
}

fn main() {
    let mut seed = 0x1234_5678_9abc_def1;
    for n in [1, 8, 64] {
        race(&format!("{n} campaigns, small figures"), &day(n, false, &mut seed));
        race(&format!("{n} campaigns, great figures"), &day(n, true, &mut seed));
    }
}
