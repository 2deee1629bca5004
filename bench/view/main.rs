//! `view` of the proved library against plain Rust: a day of 4,096 views, each with the whole state's soundness, at
//! several numbers of campaigns. Both show the same views in turn, in one run; what they answer is compared by a
//! checksum.

mod checksum;
mod library;
mod plain;

use std::hint::black_box;

/// Depth, width, terms and views.
type Views = unsafe extern "C" fn(u64, u64, *const u64, usize, *const u64, usize) -> u64;

extern "C" {
    fn bench_views_by_value(
        depth: u64,
        width: u64,
        terms: *const u64,
        terms_len: usize,
        views: *const u64,
        views_len: usize,
    ) -> u64;
    fn bench_views_in_place(
        depth: u64,
        width: u64,
        terms: *const u64,
        terms_len: usize,
        views: *const u64,
        views_len: usize,
    ) -> u64;
    fn clock_gettime(clock: i32, time: *mut i64) -> i32;
}

const VIEWS: usize = 4_096;
const DEPTH: u64 = 8;
const RUNS: usize = 300;
/// Campaigns and width.
const DAYS: [(u64, u64); 5] = [(2, 2), (16, 4), (16, 16), (64, 4), (64, 16)];

struct Day {
    width: u64,
    terms: Vec<u64>,
    views: Vec<u64>,
}

/// SplitMix64.
fn next(state: &mut u64) -> u64 {
    *state = state.wrapping_add(0x9e37_79b9_7f4a_7c15);
    let mut z = *state;
    z = (z ^ (z >> 30)).wrapping_mul(0xbf58_476d_1ce4_e5b9);
    z = (z ^ (z >> 27)).wrapping_mul(0x94d0_49bb_1331_11eb);
    z ^ (z >> 31)
}

/// Campaigns with budgets for about the plays that the day gives them; views that name one to d campaigns.
fn day(campaigns: u64, width: u64) -> Day {
    let mut seed = campaigns * 100 + width;
    let mut terms = vec![];
    for _ in 0..campaigns {
        let price = 1 + next(&mut seed) % (2_000_000_000 / 8_192 / 2);
        let plays = 1 + next(&mut seed) % (2 * VIEWS as u64 / campaigns);
        terms.extend([price, price * plays]);
    }
    let views = (0..VIEWS)
        .map(|_| {
            let named = 1 + next(&mut seed) % width;
            (0..named).fold(0, |set, _| set | 1 << (next(&mut seed) % campaigns))
        })
        .collect();
    Day {
        width,
        terms,
        views,
    }
}

fn proved(show: Views, day: &Day) -> u64 {
    let (terms, views) = (&day.terms, &day.views);
    unsafe {
        show(
            DEPTH,
            day.width,
            terms.as_ptr(),
            terms.len(),
            views.as_ptr(),
            views.len(),
        )
    }
}

fn by_library(day: &Day) -> u64 {
    let mut state = library::Day::start(DEPTH, day.width, &day.terms);
    let sum = day
        .views
        .iter()
        .fold(0, |sum, &set| checksum::fold_answer(sum, state.view(set)));
    state.fold_counts(sum)
}

fn plain(day: &Day) -> u64 {
    let mut state = plain::Day::start(DEPTH, day.width, &day.terms);
    let sum = day
        .views
        .iter()
        .fold(0, |sum, &set| checksum::fold_answer(sum, state.view(set)));
    state.fold_counts(sum)
}

/// The time that this thread has run, in nanoseconds: what other programs take of the machine is left out.
fn now() -> f64 {
    const CLOCK_THREAD_CPUTIME_ID: i32 = 3;
    let mut time = [0i64; 2];
    unsafe {
        clock_gettime(CLOCK_THREAD_CPUTIME_ID, time.as_mut_ptr());
    }
    time[0] as f64 * 1e9 + time[1] as f64
}

/// The checksum of a day and its nanoseconds for one view.
fn timed(run: impl Fn(&Day) -> u64, day: &Day) -> (u64, f64) {
    let start = now();
    let sum = black_box(run(black_box(day)));
    (sum, (now() - start) / VIEWS as f64)
}

fn best(times: &[f64]) -> f64 {
    times.iter().copied().fold(f64::INFINITY, f64::min)
}

fn median(times: &[f64]) -> f64 {
    let mut sorted = times.to_vec();
    sorted.sort_by(f64::total_cmp);
    sorted[sorted.len() / 2]
}

fn main() {
    println!(
        "nanoseconds for one view, best of {RUNS} days of {VIEWS} views, depth {DEPTH}; in brackets plain Rust's time"
    );
    println!("by ours: of the best, and the median over days run one after the other");
    println!(
        "campaigns width  plain Rust      by the library         in place               by value"
    );
    let only: Vec<u64> = std::env::args().skip(1).flat_map(|a| a.parse()).collect();
    for (campaigns, width) in DAYS {
        if !only.is_empty() && only != [campaigns, width] {
            continue;
        }
        let day = day(campaigns, width);
        let (mut called, mut in_place, mut by_value, mut theirs) = (vec![], vec![], vec![], vec![]);
        for _ in 0..RUNS {
            let (a, time) = timed(|day| proved(bench_views_in_place, day), &day);
            in_place.push(time);
            let (b, time) = timed(|day| proved(bench_views_by_value, day), &day);
            by_value.push(time);
            let (c, time) = timed(by_library, &day);
            called.push(time);
            let (d, time) = timed(plain, &day);
            theirs.push(time);
            assert!(a == d && b == d && c == d, "the checksums differ");
        }
        let speed = |ours: &[f64]| {
            let speeds: Vec<f64> = ours.iter().zip(&theirs).map(|(a, b)| b / a).collect();
            format!(
                "{:8.1} ({:4.2} {:4.2})",
                best(ours),
                best(&theirs) / best(ours),
                median(&speeds)
            )
        };
        println!(
            "{campaigns:9} {width:5}    {:8.1}  {}   {}   {}",
            best(&theirs),
            speed(&called),
            speed(&in_place),
            speed(&by_value)
        );
    }
}
