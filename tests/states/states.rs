//! States to try: real days, made-up ones, and ones with a rule broken.

use crate::random::Random;
use second::day::{Campaign, Day, Phase, MAX_BUDGET, MAX_CAMPAIGNS, MAX_PRICE, MAX_VIEWS};

/// The plans at the edge of question 5, and some inside.
pub const PLANS: [(u64, u64); 22] = [
    (1, 1),
    (2, 1),
    (31, 1),
    (32, 1),
    (1, 2),
    (2, 2),
    (31, 2),
    (32, 2),
    (3, 3),
    (19, 3),
    (20, 3),
    (16, 4),
    (13, 5),
    (12, 6),
    (11, 7),
    (10, 8),
    (10, 9),
    (9, 10),
    (8, 13),
    (8, 16),
    (1, 16),
    (4, 4),
];

/// Money and counts next to the limits, and the ends of the widths that hold them.
pub const EDGES: [u64; 28] = [
    0,
    1,
    2,
    3,
    15,
    16,
    17,
    31,
    32,
    33,
    63,
    64,
    65,
    MAX_VIEWS - 1,
    MAX_VIEWS,
    MAX_VIEWS + 1,
    (1 << 16) - 1,
    1 << 16,
    MAX_PRICE - 1,
    MAX_PRICE,
    MAX_PRICE + 1,
    MAX_BUDGET - 1,
    MAX_BUDGET,
    MAX_BUDGET + 1,
    (1 << 32) - 1,
    1 << 32,
    u64::MAX - 1,
    u64::MAX,
];

/// Terms for a plan of n campaigns: cheap and dear, few plays and many.
fn terms(random: &mut Random, n: u64) -> (u64, u64) {
    let share = MAX_BUDGET / n.max(1);
    let price = random.spread(1, MAX_PRICE.min(share));
    let plays = random.spread(1, share / price);
    let rest = random.below(price);
    (price, (price * plays + rest).min(share))
}

/// A plan with n campaigns, still in Filling.
pub fn filled(random: &mut Random, n: u64) -> Day {
    let (depth, width) = random.pick(&PLANS);
    let mut day = Day::blank().open(depth, width).0;
    let same = terms(random, n);
    for _ in 0..n {
        let (price, budget) = if random.one_in(4) { same } else { terms(random, n) };
        day = day.add(price, budget).0;
    }
    day
}

/// A view of up to as many names as the width, now and then of none; of paused ones it may have more.
pub fn names(random: &mut Random, day: &Day) -> u64 {
    let size = if random.one_in(8) { 0 } else { day.width };
    let more = if random.one_in(4) { day.paused } else { 0 };
    random.set(day.count, size) | more & random.next()
}

/// The set of the campaigns in the plan.
pub fn planned(day: &Day) -> u64 {
    u64::MAX.checked_shr(64 - day.count.min(64) as u32).unwrap_or(0)
}

/// Marks of campaigns in the plan: none, some or all.
pub fn marks(random: &mut Random, day: &Day) -> u64 {
    let some = random.next();
    random.pick(&[0, some, u64::MAX]) & planned(day)
}

/// A day that has run for some views.
pub fn run(random: &mut Random, n: u64, views: u64) -> Day {
    let mut day = filled(random, n).start().0;
    for _ in 0..views {
        let set = names(random, &day);
        day = day.view(set).0;
        if random.one_in(4) {
            let campaign = random.below(n + 1);
            let paused = day.clone().pause(campaign).0;
            day = if random.one_in(2) { paused } else { day.resume(campaign).0 };
        }
    }
    day
}

pub fn size(random: &mut Random) -> u64 {
    random.pick(&[0, 1, 1, 2, 2, 3, 5, 8, 16, 33, 63, 64])
}

/// A sound state that no day reaches, Running or Closed.
pub fn made_up(random: &mut Random) -> Day {
    let n = size(random);
    let filled = filled(random, n);
    let mut day = counted(random, filled);
    if random.one_in(3) {
        close(&mut day);
    }
    day
}

/// A plan in Filling that now runs, with counts and marks that no day need reach: any marks, any plays, turns at least
/// the plays, then ages and further turns for as long as the total claim stays within full.
pub fn counted(random: &mut Random, filled: Day) -> Day {
    let mut day = filled;
    let n = day.count;
    day.phase = Phase::Running;
    day.paused = marks(random, &day);
    day.views = random.pick(&[1, 2, 40, MAX_VIEWS - 1, MAX_VIEWS]);
    for i in 0..n as usize {
        let c = &mut day.campaigns[i];
        c.plays = random.spread(0, (c.budget / c.price).min(day.views));
        c.turns = c.plays;
        c.named = random.spread(c.turns, day.views);
    }
    for _ in 0..2 * n {
        let i = random.below(n) as usize;
        let was = day.campaigns[i];
        if random.one_in(2) {
            day.campaigns[i].age = random.below(day.depth);
        } else {
            day.campaigns[i].turns = random.spread(was.turns, was.named);
        }
        if !day.is_sound() {
            day.campaigns[i] = was;
        }
    }
    day
}

/// Closed with the takings of its counts.
pub fn close(day: &mut Day) {
    let takings = day.campaigns.iter().map(|c| c.price * c.plays).sum();
    day.phase = Phase::Closed(takings);
}

fn field(c: &mut Campaign, which: u64) -> &mut u64 {
    match which {
        0 => &mut c.price,
        1 => &mut c.budget,
        2 => &mut c.plays,
        3 => &mut c.turns,
        4 => &mut c.age,
        _ => &mut c.named,
    }
}

/// Another number: next to the one there, at an edge, or any.
fn other(random: &mut Random, was: u64) -> u64 {
    match random.below(8) {
        0..=1 => was.wrapping_add(1),
        2..=3 => was.wrapping_sub(1),
        4..=5 => random.pick(&EDGES),
        6 => random.spread(0, 1 << 16),
        _ => random.next() >> random.below(64),
    }
}

/// The state with one number changed.
pub fn mutate(random: &mut Random, day: &mut Day) {
    let at =
        if random.one_in(4) { random.below(MAX_CAMPAIGNS) } else { random.below((day.count + 1).min(MAX_CAMPAIGNS)) };
    match random.below(12) {
        10 => day.paused ^= 1 << at,
        11 => day.paused = other(random, day.paused),
        0 => day.depth = other(random, day.depth),
        1 => day.width = other(random, day.width),
        2 => day.count = other(random, day.count),
        3 => day.views = other(random, day.views),
        4 => {
            day.phase = match random.below(3) {
                0 => Phase::Filling,
                1 => Phase::Running,
                _ => match day.phase {
                    Phase::Closed(takings) => Phase::Closed(other(random, takings)),
                    _ => Phase::Closed(random.spread(0, MAX_BUDGET)),
                },
            }
        }
        _ => {
            let which = random.below(6);
            let value = field(&mut day.campaigns[at as usize], which);
            *value = other(random, *value);
        }
    }
}

/// A state with the name of the rule that it breaks.
pub type Broken = (&'static str, Day);

fn changed(rule: &'static str, day: &Day, change: impl FnOnce(&mut Day)) -> Broken {
    let mut day = day.clone();
    change(&mut day);
    (rule, day)
}

/// Every rule of soundness broken alone, in a sound state that is Running with at least two campaigns, fewer than 64
/// of them and fewer than 4,096 views.
pub fn broken(day: &Day) -> Vec<Broken> {
    let n = day.count as usize;
    let mut all = [broken_heads(day), broken_phases(day), broken_marks(day)].concat();
    for which in 0..6 {
        for at in [n, 63] {
            all.push(changed("an entry past the last", day, |d| {
                *field(&mut d.campaigns[at], which) = 1;
            }));
        }
    }
    for at in [0, n - 1] {
        all.extend(broken_terms(day, at));
        all.extend(broken_counts(day, at));
    }
    all
}

fn broken_heads(day: &Day) -> Vec<Broken> {
    vec![
        changed("depth 0", day, |d| d.depth = 0),
        changed("depth 33", day, |d| d.depth = 33),
        changed("depth 2^64 - 1", day, |d| d.depth = u64::MAX),
        changed("width 0", day, |d| d.width = 0),
        changed("width 17", day, |d| d.width = 17),
        changed("width 2^64 - 1", day, |d| d.width = u64::MAX),
        changed("power 3^21", day, |d| (d.depth, d.width) = (21, 3)),
        changed("power 16^9", day, |d| (d.depth, d.width) = (9, 16)),
        changed("power 16^32", day, |d| (d.depth, d.width) = (32, 16)),
        changed("65 campaigns", day, |d| d.count = 65),
        changed("2^64 - 1 campaigns", day, |d| d.count = u64::MAX),
        changed("a campaign that is all zero", day, |d| d.count += 1),
        changed("an entry past the last", day, |d| d.count -= 1),
        changed("4097 views", day, |d| d.views = 4_097),
        changed("2^64 - 1 views", day, |d| d.views = u64::MAX),
    ]
}

fn broken_phases(day: &Day) -> Vec<Broken> {
    vec![
        changed("Closed with other takings", day, |d| {
            close(d);
            if let Phase::Closed(takings) = &mut d.phase {
                *takings += 1;
            }
        }),
        changed("Filling with a view", day, |d| {
            filling(d, 0);
            d.views = 1;
        }),
        changed("Filling with an age", day, |d| {
            filling(d, 0);
            // of width 1, so that the age claims nothing
            (d.depth, d.width) = (2, 1);
            d.campaigns[0].age = 1;
        }),
    ]
}

fn broken_marks(day: &Day) -> Vec<Broken> {
    let next = 1 << day.count;
    vec![
        changed("a mark past the last", day, |d| d.paused |= next),
        changed("a mark past the last", day, |d| d.paused = 1 << 63),
        changed("all marks, also past the last", day, |d| d.paused = u64::MAX),
        changed("Closed with a mark past the last", day, |d| {
            close(d);
            d.paused |= next;
        }),
        changed("Filling with a mark", day, |d| filling(d, 1)),
        changed("Filling with the last mark", day, |d| filling(d, next / 2)),
        changed("Filling with a mark past the last", day, |d| filling(d, next)),
    ]
}

/// The state with one campaign changed.
fn one(rule: &'static str, day: &Day, at: usize, change: impl FnOnce(&mut Campaign)) -> Broken {
    changed(rule, day, |d| change(&mut d.campaigns[at]))
}

fn broken_terms(day: &Day, at: usize) -> Vec<Broken> {
    let others = day.campaigns.iter().map(|c| c.budget).sum::<u64>() - day.campaigns[at].budget;
    vec![
        one("price 0", day, at, |c| (c.price, c.plays) = (0, 0)),
        one("price above 1,000,000", day, at, |c| c.price = MAX_PRICE + 1),
        one("budget below price", day, at, |c| c.budget = c.price - 1),
        one("budget above 2,000,000,000", day, at, |c| c.budget = MAX_BUDGET + 1),
        one("sum of budgets", day, at, |c| c.budget = MAX_BUDGET + 1 - others),
        one("plays above whole plays", day, at, |c| c.budget = c.price * c.plays - 1),
    ]
}

fn broken_counts(day: &Day, at: usize) -> Vec<Broken> {
    vec![
        one("age at depth", day, at, |c| c.age = day.depth),
        one("age 65535", day, at, |c| c.age = 65_535),
        one("plays above turns", day, at, |c| c.turns = c.plays.saturating_sub(1)),
        one("turns above named", day, at, |c| c.turns = c.named + 1),
        one("named above views", day, at, |c| c.named = day.views + 1),
    ]
}

/// No counts and no marks.
fn uncount(day: &mut Day) {
    day.paused = 0;
    for c in &mut day.campaigns {
        (c.plays, c.turns, c.age, c.named) = (0, 0, 0, 0);
    }
}

/// Filling, with these marks alone.
fn filling(day: &mut Day, marks: u64) {
    uncount(day);
    (day.phase, day.views, day.paused) = (Phase::Filling, 0, marks);
}

/// A running day whose every campaign has at least two plays, and cents and views left.
pub fn sturdy(random: &mut Random) -> Day {
    loop {
        let n = 2 + random.below(6);
        let (depth, width) = random.pick(&[(1, 2), (2, 2), (3, 2), (2, 3), (4, 4), (8, 16)]);
        let mut day = Day::blank().open(depth, width).0;
        for _ in 0..n {
            let price = 2 + random.below(90);
            day = day.add(price, price * (3 + random.below(60)) + 1).0;
        }
        day = day.start().0;
        for _ in 0..60 * n {
            let set = random.set(n, width);
            day = day.view(set).0;
        }
        if day.campaigns[..n as usize].iter().all(|c| c.plays >= 2) {
            day.paused = random.below(1 << n);
            return day;
        }
    }
}

/// A state whose claims add up to more than 64 bits hold, and so little above full that a sum that wraps would pass.
pub fn overflow() -> Day {
    let mut day = Day::blank().open(32, 2).0;
    day = day.add(1_000_000, 1_999_000_000).0;
    day = day.add(1_000_000, 1_000_000).0;
    day = day.start().0;
    day.views = 4_096;
    for (c, (plays, turns)) in day.campaigns.iter_mut().zip([(1_999, 1_999), (0, 4_096)]) {
        (c.plays, c.turns, c.named) = (plays, turns, 4_096);
    }
    day
}
