//! The station's page: the proved program against the second one on recorded days, and the proved library against the
//! second program's page on made-up states, with buffers that are short, exact and longer.

mod days;
#[path = "../states/library.rs"]
mod library;
#[path = "../states/model.rs"]
mod model;
mod outputs;
mod product;
#[path = "../states/random.rs"]
mod random;
#[path = "../states/states.rs"]
mod states;

use random::Random;
use second::day::{Day, Phase, MAX_BUDGET, MAX_PRICE, MAX_VIEWS};
use std::process::exit;

/// Pages of files of the corpus, worked out from the documents. The last day of `pauses` has 4,096 views of a campaign
/// that is paused.
const PAGES: [(&str, &str); 2] = [
    (
        "listing",
        "  0     2       0.05          0.10     4
  1     2       0.03          0.06     4
total                         0.16      
",
    ),
    (
        "pauses",
        "  0     0       0.04          0.00     0
total                         0.00      
",
    ),
];

/// The page of 64 campaigns.
const LONGEST: usize = 41 * 65;

/// What the bytes of a buffer are before a page is printed.
const UNTOUCHED: u8 = b'~';

fn fail(passed: u64, what: &str) -> ! {
    println!("{what}");
    println!("{passed} passed, 1 failed");
    exit(1)
}

fn recorded(passed: &mut u64, programs: [&str; 2], corpus: &str) {
    let mut pages = 0;
    for file in outputs::files(corpus) {
        let input = std::fs::read(&file).expect("a file of the corpus");
        let page = outputs::same(programs, &input).unwrap_or_else(|e| fail(*passed, &format!("{file:?}: {e}")));
        let due = PAGES.iter().find(|(name, _)| file.ends_with(name));
        if due.is_some_and(|(_, text)| page != text.as_bytes()) {
            fail(*passed, &format!("{file:?}: the page is another"));
        }
        pages += usize::from(due.is_some());
        *passed += 1;
    }
    if pages < PAGES.len() {
        fail(*passed, "not every day whose page is known was printed");
    }
}

fn generated(passed: &mut u64, programs: [&str; 2], seeds: std::ops::Range<u64>) {
    let mut lines = 0;
    for seed in seeds {
        let input = days::day(&mut Random::new(seed));
        let page = outputs::same(programs, &input).unwrap_or_else(|e| fail(*passed, &format!("seed {seed}: {e}")));
        lines += page.len() / 41;
        *passed += 1;
    }
    println!("generated days: pages of {lines} lines");
}

/// The library's page of a state against the second program's, in a buffer of so many bytes.
fn compare(day: &Day, room: usize) -> Result<u64, String> {
    let Some(lent) = model::lent(day) else {
        return Ok(1);
    };
    let (mut due, mut out) = (vec![UNTOUCHED; room], vec![UNTOUCHED; room]);
    let (status, length) = match second::page::write(day, &mut due) {
        Ok(n) => (0, n as u64),
        Err(question) => (question, product::NO_LENGTH),
    };
    let found = product::page(&lent, &mut out);
    if found != (status, length) || out != due {
        return Err(format!(
            "state: {day:?}\nroom: {room}\nlibrary: {found:?}\n{}\nsecond program: {:?}\n{}",
            out.escape_ascii(),
            (status, length),
            due.escape_ascii()
        ));
    }
    Ok(status)
}

#[derive(Default)]
struct Statuses {
    printed: u64,
    unsound: u64,
    short: u64,
}

/// A state with every kind of room; the page of n campaigns has 41 × (n + 1) bytes.
fn every_room(passed: &mut u64, seen: &mut Statuses, day: &Day) {
    let whole = 41 * (day.count.min(64) as usize + 1);
    for room in [0, 1, 40, whole - 1, whole, whole + 1, whole + 300] {
        match compare(day, room).unwrap_or_else(|e| fail(*passed, &e)) {
            0 => seen.printed += 1,
            1 => seen.unsound += 1,
            _ => seen.short += 1,
        }
    }
    *passed += 1;
}

/// The library's page of a sound state.
fn page(day: &Day) -> Vec<u8> {
    let mut out = vec![UNTOUCHED; LONGEST];
    let lent = model::lent(day).expect("a sound state fits");
    let (status, length) = product::page(&lent, &mut out);
    assert_eq!(status, 0, "a sound state is printed");
    out.truncate(length as usize);
    out
}

/// Marks are not on the page: it is the same with none of them, some and all.
fn marked(passed: &mut u64, seen: &mut Statuses, random: &mut Random, day: &Day) {
    let planned = states::planned(day);
    let due = page(&Day { paused: 0, ..day.clone() });
    for paused in [planned, random.next() & planned] {
        let marked = Day { paused, ..day.clone() };
        every_room(passed, seen, &marked);
        if page(&marked) != due {
            fail(*passed, &format!("state: {marked:?}\nits marks are on the page"));
        }
    }
}

/// Every rule of soundness broken alone, those of the marks too: no page is printed.
fn broken(passed: &mut u64, random: &mut Random) {
    for _ in 0..20 {
        for (rule, day) in states::broken(&states::sturdy(random)) {
            let status = compare(&day, LONGEST).unwrap_or_else(|e| fail(*passed, &e));
            if status != 1 {
                fail(*passed, &format!("state: {day:?}\na page, though it breaks a rule: {rule}"));
            }
            *passed += 1;
        }
    }
}

/// Depth 1, width 1, where every play is a turn: n campaigns with the greatest price and as many plays as fit.
fn greatest(n: u64) -> Day {
    let mut day = Day::blank().open(1, 1).0;
    let budget = MAX_BUDGET / n.max(1);
    let price = MAX_PRICE.min(budget);
    for _ in 0..n {
        day = day.add(price, budget).0;
    }
    day = day.start().0;
    day.views = MAX_VIEWS;
    for c in day.campaigns.iter_mut().take(n as usize) {
        c.plays = (c.budget / c.price).min(MAX_VIEWS);
        (c.turns, c.named) = (c.plays, MAX_VIEWS);
    }
    day
}

fn made_up(passed: &mut u64, seed: u64) {
    let (mut random, mut seen) = (Random::new(seed), Statuses::default());
    for n in [0, 1, 2, 9, 10, 63, 64] {
        for day in [greatest(n), states::filled(&mut random, n), states::run(&mut random, n, 50)] {
            every_room(passed, &mut seen, &day);
            let mut closed = day.clone();
            states::close(&mut closed);
            every_room(passed, &mut seen, &closed);
            marked(passed, &mut seen, &mut random, &closed);
            if day.phase == Phase::Running {
                marked(passed, &mut seen, &mut random, &day);
            }
        }
    }
    broken(passed, &mut random);
    for _ in 0..2_000 {
        let mut day = states::made_up(&mut random);
        every_room(passed, &mut seen, &day);
        states::mutate(&mut random, &mut day);
        every_room(passed, &mut seen, &day);
    }
    for plays in [0, 1, 9, 10, 99, 100, 999, 1_000, 2_000] {
        for price in [1, 9, 10, 99, 100, 101, 999, 9_999, 10_000, 99_999, 100_000, 999_999, MAX_PRICE] {
            let mut day = greatest(1);
            let c = &mut day.campaigns[0];
            (c.price, c.plays, c.turns, c.budget) = (price, plays, plays, MAX_BUDGET);
            day.phase = Phase::Running;
            every_room(passed, &mut seen, &day);
        }
    }
    println!("states: {} printed, {} unsound, {} without room", seen.printed, seen.unsound, seen.short);
    if seen.printed == 0 || seen.unsound == 0 || seen.short == 0 {
        fail(*passed, "not every kind of answer was seen");
    }
}

fn main() {
    let mut words: Vec<String> = std::env::args().skip(1).collect();
    let numbers: Vec<u64> = words.drain(3..).map(|w| w.parse().expect("a number")).collect();
    let count = numbers.first().copied().unwrap_or(300);
    let first = numbers.get(1).copied().unwrap_or(1);
    let mut passed = 0;
    let programs = [&words[0][..], &words[1]];
    recorded(&mut passed, programs, &words[2]);
    generated(&mut passed, programs, first..first + count);
    made_up(&mut passed, first);
    println!("{passed} passed, 0 failed");
}
