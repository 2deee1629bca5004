//! The proved operations against the second program's, on states that need not be those of any day.

mod library;
mod model;
mod random;
mod states;

use library::{Head, Lent, NO_ANSWER};
use model::{call, Call, KINDS};
use random::Random;
use second::day::{Day, Phase, MAX_BUDGET, MAX_PRICE, MAX_VIEWS};
use states::{EDGES, PLANS};

/// The seven words are no head of a state.
const NO_HEAD: u64 = 100;
/// 0 in 32 bits.
const WRAPS: u64 = 1 << 32;
/// The status of a call of a state that is not sound.
const UNSOUND: u64 = 1;

#[derive(Default)]
struct Tally {
    groups: u64,
    calls: u64,
    accepted: u64,
    unsound: u64,
}

impl Tally {
    /// One call on one state, by both; gives the status of both, or none where the library's arrays cannot hold the
    /// state.
    fn compare(&mut self, day: &Day, call: Call) -> Option<u64> {
        let mut found = model::lent(day)?;
        let status = found.operate(call);
        let (due_status, due) = model::outcome(day, call);
        if (status, &found) != (due_status, &due) {
            self.differ(day, call, (status, &found), (due_status, &due));
        }
        self.calls += 1;
        self.accepted += u64::from(status == 0);
        self.unsound += u64::from(status == UNSOUND);
        Some(status)
    }

    fn differ(&self, day: &Day, call: Call, found: (u64, &Lent), due: (u64, &Lent)) -> ! {
        println!("state: {day:?}");
        println!("call: {call:?}");
        println!("library: status {}, {:?}", found.0, found.1);
        println!("second program: status {}, {:?}", due.0, due.1);
        self.fail()
    }

    fn fail(&self) -> ! {
        println!("{} passed, 1 failed", self.groups);
        std::process::exit(1);
    }

    /// A call that must be refused with question 1.
    fn refused(&mut self, rule: &str, day: &Day, call: Call) {
        if self.compare(day, call) != Some(UNSOUND) {
            println!("state: {day:?}\nnot refused with 1, though it breaks a rule: {rule}");
            self.fail()
        }
    }

    fn end(&mut self, group: &str, before: (u64, u64, u64)) {
        let (calls, accepted, unsound) = before;
        if self.calls == calls {
            println!("{group}: nothing was compared");
            self.fail()
        }
        self.groups += 1;
        println!(
            "{group}: {} calls, {} accepted, {} on unsound states",
            self.calls - calls,
            self.accepted - accepted,
            self.unsound - unsound
        );
    }

    fn group(&mut self, name: &str, body: impl FnOnce(&mut Tally)) {
        let before = (self.calls, self.accepted, self.unsound);
        body(self);
        self.end(name, before);
    }
}

/// A call with arguments that fit the state, are next to a limit, or are any number.
fn made_call(random: &mut Random, day: &Day) -> Call {
    let kind = random.below(KINDS);
    let edge = |random: &mut Random| random.pick(&EDGES);
    let (a, b) = match (kind, random.below(4)) {
        (0, 0..=1) => random.pick(&PLANS),
        (0, 2) => (random.below(35), random.below(19)),
        (1, 0..=1) => {
            let price = random.spread(1, MAX_PRICE);
            (price, random.spread(price, MAX_BUDGET))
        }
        (3, 0..=2) => {
            let size = random.below(day.width.min(17) + 1);
            let more = if random.one_in(3) { day.paused } else { 0 };
            (random.set(day.count.min(64), size) | more, 0)
        }
        (4 | 6 | 7, 0..=2) => (random.below(day.count.min(64) + 1), 0),
        _ => (edge(random), edge(random)),
    };
    call(kind, a, b)
}

/// Openings at the limits.
fn edge_plans() -> Vec<Call> {
    let mut plans = vec![(8, 16), (9, 16), (20, 3), (21, 3), (16, 4), (17, 4)];
    for depth in [0, 1, 32, 33, WRAPS + 1, u64::MAX] {
        plans.extend([0, 1, 2, 16, 17, WRAPS + 2, u64::MAX].map(|width| (depth, width)));
    }
    plans.into_iter().map(|(depth, width)| call(0, depth, width)).collect()
}

/// Campaigns at the limits, and at the room that the other budgets leave.
fn edge_campaigns(day: &Day) -> Vec<Call> {
    let sum: u128 = day.campaigns.iter().map(|c| u128::from(c.budget)).sum();
    let room = MAX_BUDGET.saturating_sub(sum.min(u128::from(MAX_BUDGET)) as u64);
    let mut calls = vec![];
    for price in [0, 1, MAX_PRICE, MAX_PRICE + 1, WRAPS + 1, u64::MAX] {
        let beside = [price.wrapping_sub(1), price, room, room + 1, WRAPS + room];
        let budgets = [0, 1, MAX_BUDGET, MAX_BUDGET + 1, u64::MAX];
        calls.extend(beside.map(|budget| call(1, price, budget)));
        calls.extend(budgets.map(|budget| call(1, price, budget)));
    }
    calls
}

/// Views of as many unpaused names as the width and one more, with and without paused ones, and of numbers that the
/// plan lacks.
fn edge_views(day: &Day) -> Vec<Call> {
    let (planned, paused) = (states::planned(day), day.paused);
    let first = |k: u64| {
        let unpaused = (0..64).map(|i| 1 << i).filter(|bit| planned & !paused & bit != 0);
        unpaused.take(k as usize).sum::<u64>()
    };
    let d = day.width.min(64);
    let beyond = planned.wrapping_add(1);
    let around = [first(d), first(d) | paused, first(d + 1), first(d + 1) | paused, beyond, paused | beyond];
    let plain = [0, 1, planned, paused, 1 << 63, u64::MAX];
    around.into_iter().chain(plain).map(|set| call(3, set, 0)).collect()
}

/// Each kind of call with arguments at the limits.
fn edge_calls(day: &Day) -> Vec<Call> {
    let n = day.count.min(64);
    let mut calls = [edge_plans(), edge_campaigns(day), edge_views(day)].concat();
    for campaign in [0, n.wrapping_sub(1), n, 63, 64, 128, WRAPS, u64::MAX] {
        calls.extend([4, 6, 7].map(|kind| call(kind, campaign, 0)));
    }
    calls.extend([call(2, 0, 0), call(5, 0, 0)]);
    calls
}

/// All kinds, with arguments that would be accepted in the right phase.
fn plain_calls() -> [Call; KINDS as usize] {
    [(0, 2, 2), (1, 5, 10), (2, 0, 0), (3, 1, 0), (4, 0, 0), (5, 0, 0), (6, 0, 0), (7, 0, 0)]
        .map(|(kind, a, b)| call(kind, a, b))
}

fn all_edges(tally: &mut Tally, day: &Day) {
    for call in edge_calls(day) {
        tally.compare(day, call);
    }
}

/// A campaign, now and then one that the plan lacks, is paused or resumed.
fn marked(tally: &mut Tally, random: &mut Random, day: Day) -> Day {
    let campaign = random.below(day.count + 1);
    let kind = 6 + random.below(2);
    tally.compare(&day, call(kind, campaign, 0));
    match kind {
        6 => day.pause(campaign).0,
        _ => day.resume(campaign).0,
    }
}

/// Views, and calls of all kinds among them, on the state that the call before handed back.
fn views(tally: &mut Tally, random: &mut Random, mut day: Day) -> Day {
    for _ in 0..80 {
        let set = states::names(random, &day);
        tally.compare(&day, call(3, set, 0));
        day = day.view(set).0;
        if random.one_in(4) {
            tally.compare(&day, made_call(random, &day));
        }
        if random.one_in(6) {
            day = marked(tally, random, day);
        }
    }
    day
}

/// Days as they run.
fn days(tally: &mut Tally, seed: u64) {
    let mut random = Random::new(seed);
    for _ in 0..700 {
        let n = states::size(&mut random);
        let plan = random.pick(&PLANS);
        tally.compare(&Day::blank(), call(0, plan.0, plan.1));
        let mut day = states::filled(&mut random, n);
        for _ in 0..6 {
            tally.compare(&day, made_call(&mut random, &day));
        }
        tally.compare(&day, call(2, 0, 0));
        day = views(tally, &mut random, day.start().0);
        tally.compare(&day, call(5, 0, 0));
        day = day.close().0;
        for _ in 0..4 {
            tally.compare(&day, made_call(&mut random, &day));
        }
    }
}

fn mutations(tally: &mut Tally, seed: u64) {
    let mut random = Random::new(seed);
    for _ in 0..4_000 {
        let n = states::size(&mut random);
        let views = random.below(30);
        let base = match random.below(6) {
            0 => states::filled(&mut random, n),
            1 => states::run(&mut random, n, views).close().0,
            2 => states::made_up(&mut random),
            _ => states::run(&mut random, n, views),
        };
        for _ in 0..30 {
            let mut day = base.clone();
            for _ in 0..1 + random.below(3) / 2 {
                states::mutate(&mut random, &mut day);
            }
            tally.compare(&day, made_call(&mut random, &day));
        }
    }
}

/// Sound states that no day reaches, up to the last turn that the total claim leaves room for.
fn unreachable(tally: &mut Tally, seed: u64) {
    let mut random = Random::new(seed);
    for _ in 0..5_000 {
        let day = states::made_up(&mut random);
        for _ in 0..6 {
            tally.compare(&day, made_call(&mut random, &day));
        }
        for call in plain_calls() {
            tally.compare(&day, call);
        }
    }
}

fn broken_rules(tally: &mut Tally, seed: u64) {
    let mut random = Random::new(seed);
    for _ in 0..60 {
        let day = states::sturdy(&mut random);
        assert!(day.is_sound());
        for (rule, broken) in states::broken(&day) {
            for call in plain_calls() {
                tally.refused(rule, &broken, call);
            }
        }
    }
}

/// One turn, one age or one play past what full allows.
fn claims(tally: &mut Tally, seed: u64) {
    let mut random = Random::new(seed);
    let mut past = 0;
    for _ in 0..4_000 {
        let day = states::made_up(&mut random);
        let n = day.count as usize;
        for at in 0..n.min(6) {
            let mut next = day.clone();
            let c = &mut next.campaigns[at];
            if random.one_in(2) && c.turns < c.named {
                c.turns += 1;
            } else {
                c.age += 1;
            }
            past += u64::from(!next.is_sound());
            for kind in [2, 3, 5] {
                tally.compare(&next, call(kind, 1, 0));
            }
        }
    }
    assert!(past > 1_000);
}

fn overflow(tally: &mut Tally) {
    let day = states::overflow();
    for call in plain_calls() {
        tally.refused("total claim above full", &day, call);
    }
    // the same by closing, and with fewer turns, down to a state that is sound
    let mut turns = 4_096;
    while turns > 0 {
        turns /= 2;
        let mut fewer = day.clone();
        fewer.campaigns[1].turns = turns;
        all_edges(tally, &fewer);
        states::close(&mut fewer);
        all_edges(tally, &fewer);
    }
}

/// Full plans, full days and spent campaigns.
fn limits(tally: &mut Tally, seed: u64) {
    let mut random = Random::new(seed);
    for (depth, width) in PLANS {
        for n in [0, 1, 2, 63, 64] {
            let mut day = Day::blank().open(depth, width).0;
            for i in 0..n {
                let left = MAX_BUDGET - day.campaigns.iter().map(|c| c.budget).sum::<u64>();
                let budget = if i + 1 == n { left } else { left.min(MAX_BUDGET / 64) };
                day = day.add(random.pick(&[1, 2, 999_983, MAX_PRICE]), budget).0;
            }
            all_edges(tally, &day);
            day = day.start().0;
            all_edges(tally, &day);
            for views in [MAX_VIEWS - 2, MAX_VIEWS - 1, MAX_VIEWS] {
                let mut late = day.clone();
                late.views = views;
                for c in &mut late.campaigns[..n as usize] {
                    c.plays = (c.budget / c.price).min(views) - random.below(2);
                    c.turns = c.plays;
                    c.named = views;
                    c.age = random.pick(&[0, depth - 1]);
                }
                all_edges(tally, &late);
                late.campaigns.iter_mut().for_each(|c| c.age = 0);
                all_edges(tally, &late);
                late.paused = states::marks(&mut random, &late);
                all_edges(tally, &late);
                states::close(&mut late);
                all_edges(tally, &late);
            }
        }
    }
}

/// Phases that are none and takings held outside Closed: every call says so, and nothing is written.
fn misuse(tally: &mut Tally, seed: u64) {
    let mut random = Random::new(seed);
    for _ in 0..40 {
        let n = states::size(&mut random);
        let day = states::run(&mut random, n, 20);
        let good = model::lent(&day).expect("a day fits");
        let phases = [3, 4, 1 << 32, u64::MAX].map(|phase| (phase, 0));
        let held = [(0, 1), (1, 1), (0, u64::MAX), (1, u64::MAX), (3, 1)];
        for (phase, takings) in phases.into_iter().chain(held) {
            let mut state = good.clone();
            (state.head[0], state.head[1]) = (phase, takings);
            if random.one_in(2) {
                state.terms.fill(random.next() as u32);
                state.counts.fill(random.next() as u16);
            }
            for kind in 0..KINDS {
                let mut after = state.clone();
                let call = call(kind, 1, 1);
                let status = after.operate(call);
                if status != NO_HEAD || after != state {
                    println!("lent: {state:?}\ncall: {call:?}, status {status}, left: {after:?}");
                    tally.fail()
                }
                tally.calls += 1;
            }
        }
    }
}

/// The blank state over whatever was there.
fn made_blank(tally: &mut Tally) {
    let due = model::lent(&Day::blank()).expect("the blank state fits");
    for word in [0, 1, u64::MAX, 0x1234_5678_9abc_def0] {
        let mut state = Lent::new([word; 7], [word as u32; 128], [word as u16; 256]);
        state.blank();
        if state != due {
            println!("made blank over {word:#x}: {state:?}");
            tally.fail()
        }
        tally.calls += 1;
    }
}

/// The blank state, and its phase and takings changed.
fn blank(tally: &mut Tally) {
    for phase in [Phase::Closed(0), Phase::Closed(1), Phase::Closed(u64::MAX), Phase::Filling, Phase::Running] {
        let mut day = Day::blank();
        day.phase = phase;
        all_edges(tally, &day);
        for (depth, width) in PLANS {
            (day.depth, day.width) = (depth, width);
            all_edges(tally, &day);
        }
        for marks in [1, 1 << 63, u64::MAX] {
            day.paused = marks;
            all_edges(tally, &day);
        }
    }
}

/// Calls in turn with the status, head and answer due after each, worked out from the documents: marks stay when the
/// day is closed, an opening clears them, and a refusal leaves the answer.
const MARKED_DAY: [((u64, u64, u64), u64, Head, [u64; 5]); 20] = [
    ((0, 1, 2), 0, [0, 0, 1, 2, 0, 0, 0], [1, 0, 0, 0, 0]),
    ((1, 5, 10), 0, [0, 0, 1, 2, 1, 0, 0], [1, 0, 0, 0, 0]),
    ((1, 3, 6), 0, [0, 0, 1, 2, 2, 0, 0], [1, 0, 0, 0, 0]),
    ((6, 0, 0), 11, [0, 0, 1, 2, 2, 0, 0], NO_ANSWER),
    ((7, 2, 0), 11, [0, 0, 1, 2, 2, 0, 0], NO_ANSWER),
    ((2, 0, 0), 0, [1, 0, 1, 2, 2, 0, 0], [1, 0, 0, 0, 0]),
    ((6, 2, 0), 15, [1, 0, 1, 2, 2, 0, 0], NO_ANSWER),
    ((6, 64, 0), 15, [1, 0, 1, 2, 2, 0, 0], NO_ANSWER),
    ((6, 1, 0), 0, [1, 0, 1, 2, 2, 0, 2], [1, 0, 0, 0, 0]),
    ((6, 1, 0), 0, [1, 0, 1, 2, 2, 0, 2], [1, 0, 0, 0, 0]),
    ((6, 0, 0), 0, [1, 0, 1, 2, 2, 0, 3], [1, 0, 0, 0, 0]),
    ((3, 3, 0), 0, [1, 0, 1, 2, 2, 1, 3], [3, 0, 0, 0, 0]),
    ((7, 0, 0), 0, [1, 0, 1, 2, 2, 1, 2], [1, 0, 0, 0, 0]),
    ((3, 3, 0), 0, [1, 0, 1, 2, 2, 2, 2], [2, 0, 5, 0, 0]),
    ((4, 1, 0), 0, [1, 0, 1, 2, 2, 2, 2], [4, 0, 0, 0, 0]),
    ((5, 0, 0), 0, [2, 5, 1, 2, 2, 2, 2], [5, 5, 5, 10, 0]),
    ((7, 1, 0), 11, [2, 5, 1, 2, 2, 2, 2], NO_ANSWER),
    ((6, 9, 0), 11, [2, 5, 1, 2, 2, 2, 2], NO_ANSWER),
    ((4, 0, 0), 0, [2, 5, 1, 2, 2, 2, 2], [4, 1, 1, 0, 1]),
    ((0, 2, 2), 0, [0, 0, 2, 2, 0, 0, 0], [1, 0, 0, 0, 0]),
];

fn marked_day(tally: &mut Tally) {
    let mut state = model::lent(&Day::blank()).expect("the blank state fits");
    for ((kind, a, b), due, head, answer) in MARKED_DAY {
        state.answer = NO_ANSWER;
        let status = state.operate(call(kind, a, b));
        if (status, state.head, state.answer) != (due, head, answer) {
            println!("call {kind} {a} {b}: status {status}, not {due}; {state:?}\nnot {head:?}, {answer:?}");
            tally.fail()
        }
        tally.calls += 1;
    }
}

fn main() {
    let mut tally = Tally::default();
    tally.group("the blank state", blank);
    tally.group("made blank", made_blank);
    tally.group("words that are no head", |t| misuse(t, 5));
    tally.group("claims beyond 64 bits", overflow);
    tally.group("marks of a closed day", marked_day);
    for seed in 1..=3 {
        tally.group("days", |t| days(t, seed));
        tally.group("one rule broken", |t| broken_rules(t, 10 + seed));
        tally.group("states that no day reaches", |t| unreachable(t, 20 + seed));
        tally.group("claims next to full", |t| claims(t, 30 + seed));
        tally.group("limits", |t| limits(t, 40 + seed));
        tally.group("one number or two changed", |t| mutations(t, 50 + seed));
    }
    println!("{} calls compared: {} accepted, {} on unsound states", tally.calls, tally.accepted, tally.unsound);
    println!("{} passed, 0 failed", tally.groups);
}
