//! Whole days: against the paper's own variables, against every allotment, and
//! the lines against the operations.

use crate::common::{best_allotment, max_depth, ok, play, running, Random};
use second::{lines, Answer, Day, Phase, Record, Session};

/// Algorithm 4 with its dual variables, scaled to whole numbers: `current[i]` is
/// z_i^c × (B_i / b_i) × (d^k − (d − 1)^k), so that C scales to (d − 1)^k and a
/// finished copy stands at d^k − (d − 1)^k. For widths above 1.
struct Paper {
    width: u128,
    finished: u128,
    c: u128,
    prices: Vec<u128>,
    plays_left: Vec<u64>,
    current: Vec<u128>,
    copies: Vec<u64>,
}

impl Paper {
    fn new(depth: u64, width: u64, campaigns: &[(u64, u64)]) -> Paper {
        let width = u128::from(width);
        let c = (width - 1).pow(depth as u32);
        Paper {
            width,
            finished: width.pow(depth as u32) - c,
            c,
            prices: campaigns.iter().map(|&(p, _)| p.into()).collect(),
            plays_left: campaigns.iter().map(|&(p, b)| b / p).collect(),
            current: vec![0; campaigns.len()],
            copies: vec![0; campaigns.len()],
        }
    }

    fn view(&mut self, set: u64) -> Option<usize> {
        let is_feasible = |i: &usize| set >> i & 1 == 1 && self.plays_left[*i] > 0;
        let feasible: Vec<usize> = (0..self.prices.len()).filter(is_feasible).collect();
        let score = |i: usize| self.prices[i] * (self.current[i] + self.c);
        let top = feasible.iter().map(|&i| score(i)).max()?;
        let player = feasible.iter().copied().find(|&i| score(i) == top)?;
        self.plays_left[player] -= 1;
        for i in feasible {
            self.raise(i, i == player);
        }
        Some(player)
    }

    fn raise(&mut self, i: usize, plays: bool) {
        let raised = self.current[i] * self.width + self.c;
        assert_eq!(raised % (self.width - 1), 0);
        self.current[i] = if plays {
            self.finished
        } else {
            self.finished.min(raised / (self.width - 1))
        };
        if self.current[i] == self.finished {
            self.copies[i] += 1;
            self.current[i] = 0;
        }
    }

    /// Price × (finished copies and the current one), summed.
    fn claim(&self) -> u128 {
        let held = |i: usize| u128::from(self.copies[i]) * self.finished + self.current[i];
        (0..self.prices.len())
            .map(|i| self.prices[i] * held(i))
            .sum()
    }
}

/// A random plan of the given width.
fn plan(random: &mut Random, width: u64) -> (u64, Vec<(u64, u64)>) {
    let depth = random.within(1, max_depth(width));
    let dearest = random.pick(&[1, 3, 20, 1_000_000]);
    let campaigns = (0..random.within(1, 2 * width))
        .map(|_| {
            let price = random.within(1, dearest);
            (price, price * random.within(1, 30) + random.below(price))
        })
        .collect();
    (depth, campaigns)
}

/// A random view of at most `width` of the `count` campaigns.
fn some_view(random: &mut Random, width: u64, count: u64) -> u64 {
    let names = random.within(0, width);
    (0..names).fold(0, |set, _| set | 1 << random.below(count))
}

/// Pauses or resumes a random campaign now and then; `paused` follows.
fn meddle(random: &mut Random, day: Day, paused: &mut u64) -> Day {
    let n = random.below(day.count);
    match random.below(10) {
        0 => {
            *paused |= 1 << n;
            ok(day.pause(n))
        }
        1 | 2 => {
            *paused &= !(1 << n);
            ok(day.resume(n))
        }
        _ => day,
    }
}

/// A random view of at most `width` unpaused campaigns and any paused ones.
fn mixed_view(random: &mut Random, day: &Day, paused: u64) -> u64 {
    some_view(random, day.width, day.count) | paused & random.next()
}

#[test]
fn answers_follow_the_paper() {
    let mut random = Random(41);
    for round in 0..300 {
        let width = 2 + round % 15;
        let (depth, campaigns) = plan(&mut random, width);
        let mut paper = Paper::new(depth, width, &campaigns);
        let mut day = running(depth, width, &campaigns);
        let mut paused = 0;
        for _ in 0..random.within(1, 400) {
            day = meddle(&mut random, day, &mut paused);
            let set = mixed_view(&mut random, &day, paused);
            let (next, answer) = day.view(set);
            day = next;
            let expected = match paper.view(set & !paused) {
                Some(i) => play(i as u64, campaigns[i].0),
                None => Answer::Nobody,
            };
            assert_eq!(answer, expected);
        }
        let turns: Vec<u64> = day.campaigns.iter().map(|c| c.turns).collect();
        assert_eq!(turns[..campaigns.len()], paper.copies);
        assert_eq!(u128::from(day.ledger().unwrap().claim), paper.claim());
    }
}

/// A plan of one to three campaigns that buy one or two plays each.
fn small_plan(random: &mut Random) -> Vec<(u64, u64)> {
    (0..random.within(1, 3))
        .map(|_| {
            let price = random.within(1, 9);
            (price, price * random.within(1, 2))
        })
        .collect()
}

/// Some views, pauses and resumes: the views as their sets of unpaused names,
/// and the sum paid.
fn small_day(random: &mut Random, mut day: Day) -> (Vec<u64>, u64) {
    let (mut views, mut takings, mut paused) = (Vec::new(), 0, 0);
    for _ in 0..random.within(1, 8) {
        day = meddle(random, day, &mut paused);
        let set = mixed_view(random, &day, paused);
        views.push(set & !paused);
        let (next, answer) = day.view(set);
        day = next;
        if let Answer::Play { paid, .. } = answer {
            takings += paid;
        }
    }
    assert_eq!(day.ledger().unwrap().takings, takings);
    assert_eq!(day.views, views.len() as u64);
    (views, takings)
}

/// Holds a small day against its floor; whether the floor was above 0. A
/// campaign is used and counted only on views that found it unpaused.
fn check_floor(random: &mut Random) -> bool {
    let (depth, width) = (random.within(1, 3), random.within(1, 3));
    let plan = small_plan(random);
    let (views, takings) = small_day(random, running(depth, width, &plan));
    let named = |i: usize| views.iter().filter(|&v| v >> i & 1 == 1).count() as u64;
    let is_fed = |i: usize| named(i) >= depth * (plan[i].1 / plan[i].0);
    let prices: Vec<u64> = plan.iter().map(|&(price, _)| price).collect();
    let mut plays: Vec<u64> = plan
        .iter()
        .enumerate()
        .map(|(i, &(price, budget))| if is_fed(i) { budget / price } else { 0 })
        .collect();
    let best = best_allotment(&views, &prices, &mut plays);
    let power = width.pow(depth as u32);
    let floor = power - (width - 1).pow(depth as u32);
    assert!(power * takings >= floor * best, "{plan:?} {views:?}");
    best > 0
}

#[test]
fn takings_keep_their_floor() {
    let mut random = Random(42);
    let telling = (0..20_000).filter(|_| check_floor(&mut random)).count();
    assert!(telling > 5_000, "{telling}");
}

/// A number at most `max`, or now and then any that a line can say.
fn small_or_long(random: &mut Random, max: u64) -> u64 {
    match random.below(20) {
        0 => random.edged(999_999_999_999),
        _ => random.within(0, max),
    }
}

/// A random input record, mostly fitting the phase.
fn input(random: &mut Random, day: &Day) -> Record {
    let fitting = random.below(10) > 0;
    let kind = match day.phase {
        Phase::Closed(_) if fitting => 0,
        Phase::Filling if fitting => random.pick(&[1, 1, 1, 1, 2]),
        Phase::Running if fitting && random.below(60) > 0 => random.pick(&[3, 3, 3, 5, 6, 6]),
        _ => random.below(8),
    };
    match kind {
        0 => Record::Plan {
            depth: small_or_long(random, 9),
            width: small_or_long(random, 17),
        },
        1 => Record::Campaign {
            price: small_or_long(random, 5),
            budget: small_or_long(random, 59),
        },
        2 => Record::Start,
        3 => Record::View(some_view(random, day.width, day.count + 1)),
        4 => Record::Close,
        5 => Record::Pause(random.below(day.count + 2).min(63)),
        6 => Record::Resume(random.below(day.count + 2).min(63)),
        _ => Record::Output(Answer::Ok),
    }
}

/// The answer by the operations that ask every question, the first too.
fn perform(day: Day, record: Record) -> (Day, Answer) {
    match record {
        Record::Plan { depth, width } => day.open(depth, width),
        Record::Campaign { price, budget } => day.add(price, budget),
        Record::Start => day.start(),
        Record::View(set) => day.view(set),
        Record::Pause(n) => day.pause(n),
        Record::Resume(n) => day.resume(n),
        Record::Close => day.close(),
        Record::Output(_) => (day, Answer::Refused(17)),
    }
}

/// The lines that the operations call for.
fn expected(mut day: Day, answer: Answer) -> (Day, Vec<u8>) {
    let mut out = Vec::new();
    lines::append(&Record::Output(answer), &mut out).unwrap();
    if let Answer::Closed { .. } = answer {
        for n in 0..day.count {
            let (same, tally) = day.tally(n);
            day = same;
            lines::append(&Record::Output(tally), &mut out).unwrap();
        }
    }
    (day, out)
}

#[test]
fn lines_match_the_operations() {
    let mut random = Random(43);
    let mut session = Session::new();
    let mut day = Day::blank();
    let mut closings = 0;
    for _ in 0..100_000 {
        let record = input(&mut random, &day);
        let mut line = Vec::new();
        lines::append(&record, &mut line).unwrap();
        line.pop();
        let mut out = Vec::new();
        session.answer(&line, &mut out);
        let (next, answer) = perform(day, record);
        let (next, lines) = expected(next, answer);
        assert_eq!(out, lines);
        assert_eq!(*session.day(), next);
        assert!(next.is_sound());
        closings += u64::from(matches!(answer, Answer::Closed { .. }));
        day = next;
    }
    assert!(closings > 100, "{closings}");
}

#[test]
fn views_keep_their_rules() {
    let mut random = Random(44);
    for _ in 0..200 {
        let width = random.within(1, 16);
        let (depth, campaigns) = plan(&mut random, width);
        let mut day = running(depth, width, &campaigns);
        let mut paused = 0;
        for _ in 0..100 {
            day = meddle(&mut random, day, &mut paused);
            assert_eq!(day.paused, paused);
            let set = mixed_view(&mut random, &day, paused);
            let (next, answer) = day.clone().view(set);
            check_counts(&day, &next, set & !paused, answer);
            day = next;
        }
        let (closed, _) = day.close();
        assert!(ok(closed.open(1, 1)).is_sound());
    }
}

/// Rules 2 to 4, campaign by campaign.
fn check_counts(before: &Day, after: &Day, set: u64, answer: Answer) {
    assert_eq!(after.views, before.views + 1);
    assert_eq!(after.paused, before.paused);
    for (i, (old, new)) in before.campaigns.iter().zip(&after.campaigns).enumerate() {
        let mut expected = *old;
        let is_named = set >> i & 1 == 1;
        let could_pay = is_named && old.plays < old.budget / old.price;
        let plays = matches!(answer, Answer::Play { campaign, .. } if campaign == i as u64);
        assert!(could_pay || !plays);
        expected.named += u64::from(is_named);
        expected.plays += u64::from(plays);
        let ends = plays || could_pay && old.age + 1 == before.depth;
        expected.turns += u64::from(ends);
        expected.age = if ends {
            0
        } else {
            old.age + u64::from(could_pay)
        };
        assert_eq!(*new, expected);
    }
}
