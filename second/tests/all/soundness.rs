//! The rules of a sound state, broken one at a time.

use crate::common::{entry, filling, running, Random};
use second::{Answer, Campaign, Day, Phase};

/// Depth 2, width 2: full is 60, the claims are 45 and 3.
fn base() -> Day {
    let mut day = running(2, 2, &[(5, 25), (3, 6)]);
    day.views = 5;
    day.campaigns[0] = entry(5, 25, [3, 3, 0, 4]);
    day.campaigns[1] = entry(3, 6, [0, 0, 1, 1]);
    day
}

fn changed(mut day: Day, change: impl FnOnce(&mut Day)) -> Day {
    change(&mut day);
    day
}

#[track_caller]
fn sound(day: Day) {
    assert!(day.is_sound());
    assert_ne!(day.tally(0).1, Answer::Refused(1));
}

/// Every operation gives 1 and the state as it was.
#[track_caller]
fn unsound(day: Day) {
    assert!(!day.is_sound());
    assert_eq!(day.ledger(), None);
    let outcomes = [
        day.clone().open(2, 2),
        day.clone().add(1, 1),
        day.clone().start(),
        day.clone().view(1),
        day.clone().pause(0),
        day.clone().resume(0),
        day.clone().tally(0),
        day.clone().close(),
    ];
    for outcome in outcomes {
        assert_eq!(outcome, (day.clone(), Answer::Refused(1)));
    }
}

#[test]
fn base_is_sound() {
    let ledger = base().ledger().unwrap();
    assert_eq!((ledger.takings, ledger.claim, ledger.full), (15, 48, 60));
    sound(base());
}

#[test]
fn depth() {
    // In width 1 the base claims 15 of 15.
    let narrow = changed(base(), |d| d.width = 1);
    for depth in [2, 31, 32] {
        sound(changed(narrow.clone(), |d| d.depth = depth));
    }
    for depth in [0, 33, 1 << 32, (1 << 32) + 2, 10u64.pow(18), u64::MAX] {
        unsound(changed(narrow.clone(), |d| d.depth = depth));
        unsound(changed(Day::blank(), |d| d.depth = depth));
    }
}

#[test]
fn width() {
    for width in [1, 2, 16] {
        sound(changed(Day::blank(), |d| d.width = width));
    }
    for width in [0, 17, 1 << 32, (1 << 32) + 2, u64::MAX] {
        unsound(changed(Day::blank(), |d| d.width = width));
        unsound(changed(base(), |d| d.width = width));
    }
}

#[test]
fn width_to_the_power_depth() {
    for (depth, width) in [(32, 2), (20, 3), (16, 4), (13, 5), (8, 16), (8, 15)] {
        let day = changed(Day::blank(), |d| (d.depth, d.width) = (depth, width));
        sound(day.clone());
        if depth < 32 {
            unsound(changed(day, |d| d.depth += 1));
        }
    }
}

#[test]
fn price() {
    let day = running(2, 2, &[(1_000_000, 1_000_000)]);
    sound(day.clone());
    unsound(changed(day.clone(), |d| {
        d.campaigns[0] = entry(1_000_001, 1_000_001, [0; 4])
    }));
    unsound(changed(day.clone(), |d| d.campaigns[0].price = 0));
    unsound(changed(day, |d| d.campaigns[0] = entry(0, 0, [0; 4])));
}

#[test]
fn budget() {
    sound(running(2, 2, &[(5, 5)]));
    unsound(changed(running(2, 2, &[(5, 5)]), |d| {
        d.campaigns[0].budget = 4
    }));
    let day = running(2, 2, &[(5, 2_000_000_000)]);
    sound(day.clone());
    unsound(changed(day.clone(), |d| d.campaigns[0].budget += 1));
    unsound(changed(day, |d| d.campaigns[0].budget = u64::MAX));
}

#[test]
fn budget_sum() {
    let day = running(2, 2, &[(5, 1_000_000_000), (5, 1_000_000_000)]);
    sound(day.clone());
    unsound(changed(day, |d| d.campaigns[1].budget += 1));
}

#[test]
fn campaign_count() {
    sound(filling(2, 2, &[(1, 1); 64]));
    for count in [65, 1 << 32, (1 << 32) + 64, u64::MAX] {
        unsound(changed(filling(2, 2, &[(1, 1); 64]), |d| d.count = count));
        unsound(changed(Day::blank(), |d| d.count = count));
    }
    unsound(changed(base(), |d| d.count = 3));
}

#[test]
fn view_count() {
    sound(changed(base(), |d| d.views = 4_096));
    for views in [4_097, 1 << 32, u64::MAX] {
        unsound(changed(base(), |d| d.views = views));
    }
}

#[test]
fn entries_past_the_last() {
    let fields: [fn(&mut Campaign) -> &mut u64; 6] = [
        |c| &mut c.price,
        |c| &mut c.budget,
        |c| &mut c.plays,
        |c| &mut c.turns,
        |c| &mut c.age,
        |c| &mut c.named,
    ];
    for field in fields {
        for place in [2, 3, 63] {
            for value in [1, 1 << 32, 1 << 63] {
                unsound(changed(base(), |d| *field(&mut d.campaigns[place]) = value));
            }
        }
        unsound(changed(Day::blank(), |d| *field(&mut d.campaigns[0]) = 1));
    }
    // A whole sound campaign past the last.
    unsound(changed(base(), |d| d.count = 1));
}

#[test]
fn marks() {
    for paused in 0..4 {
        sound(changed(base(), |d| d.paused = paused));
        sound(changed(base(), |d| {
            (d.paused, d.phase) = (paused, Phase::Closed(15))
        }));
    }
    for place in [2, 3, 31, 32, 63] {
        unsound(changed(base(), |d| d.paused = 1 << place));
        unsound(changed(base(), |d| d.paused = 0b11 | 1 << place));
    }
    for place in [0, 1, 63] {
        unsound(changed(Day::blank(), |d| d.paused = 1 << place));
        unsound(changed(running(2, 2, &[]), |d| d.paused = 1 << place));
    }
    sound(changed(running(2, 2, &[(1, 1); 64]), |d| {
        d.paused = u64::MAX
    }));
}

#[test]
fn filling_has_no_marks() {
    let day = filling(2, 2, &[(5, 10), (5, 10)]);
    for paused in [0b01, 0b10, 0b11, 0b100, 1 << 63] {
        unsound(changed(day.clone(), |d| d.paused = paused));
    }
    let full = filling(2, 2, &[(1, 1); 64]);
    unsound(changed(full, |d| d.paused = 1 << 63));
}

#[test]
fn age() {
    unsound(changed(base(), |d| d.campaigns[1].age = 2));
    // In width 1 an age claims nothing, so only its own rule can fail.
    let narrow = changed(base(), |d| (d.depth, d.width) = (7, 1));
    sound(changed(narrow.clone(), |d| d.campaigns[1].age = 6));
    unsound(changed(narrow.clone(), |d| d.campaigns[1].age = 7));
    unsound(changed(narrow, |d| d.campaigns[1].age = u64::MAX));
}

#[test]
fn whole_plays() {
    let spent = |budget, plays| {
        changed(base(), |d| {
            d.views = 10;
            d.campaigns[0] = entry(5, budget, [plays; 4]);
            d.campaigns[0].age = 0;
        })
    };
    sound(spent(25, 5));
    sound(spent(29, 5));
    unsound(spent(29, 6));
    sound(spent(30, 6));
}

#[test]
fn plays_at_most_turns() {
    sound(changed(base(), |d| d.campaigns[0].plays = 3));
    unsound(changed(base(), |d| d.campaigns[0].plays = 4));
}

#[test]
fn turns_at_most_named() {
    sound(changed(base(), |d| d.campaigns[0].named = 3));
    unsound(changed(base(), |d| d.campaigns[0].named = 2));
}

#[test]
fn named_at_most_views() {
    sound(changed(base(), |d| d.campaigns[0].named = 5));
    unsound(changed(base(), |d| d.campaigns[0].named = 6));
    unsound(changed(base(), |d| d.campaigns[0].named = u64::MAX));
}

#[test]
fn claim_at_most_full() {
    // Four turns claim 60; with the other's claim out of the way that is full.
    let day = changed(base(), |d| {
        d.campaigns[0].turns = 4;
        d.campaigns[1].age = 0;
    });
    let ledger = day.ledger().unwrap();
    assert_eq!((ledger.claim, ledger.full), (60, 60));
    sound(day.clone());
    unsound(changed(day.clone(), |d| d.campaigns[1].age = 1));
    unsound(changed(day, |d| {
        d.campaigns[0].named = 5;
        d.campaigns[0].turns = 5;
    }));
}

#[test]
fn claim_beyond_64_bits() {
    // Modulo 2^64 this claim would be below full.
    let price = 1_000_000;
    let mut day = running(32, 2, &[(price, 31 * price); 64]);
    day.views = 4_096;
    for c in &mut day.campaigns {
        *c = entry(price, 31 * price, [31, 4_096, 0, 4_096]);
    }
    let claim = 64 * u128::from(price) * 4_096 * ((1 << 32) - 1);
    let full = (64 * 31 * price) << 32;
    assert!(claim > u128::from(u64::MAX) && claim as u64 <= full);
    unsound(day.clone());
    for c in &mut day.campaigns {
        c.turns = 31;
    }
    sound(day);
}

#[test]
fn filling_has_no_counts() {
    let day = filling(2, 2, &[(5, 10)]);
    sound(day.clone());
    unsound(changed(day.clone(), |d| d.views = 1));
    unsound(changed(day.clone(), |d| d.campaigns[0].age = 1));
    unsound(changed(day, |d| d.campaigns[0].named = 1));
    // The same counts are sound once the day runs.
    let counted = changed(filling(2, 1, &[(5, 10)]), |d| {
        d.views = 1;
        d.campaigns[0] = entry(5, 10, [1, 1, 0, 1]);
    });
    unsound(counted.clone());
    sound(changed(counted, |d| d.phase = Phase::Running));
    // Only the rule on counts can turn away an age in width 1.
    let aged = changed(filling(2, 1, &[(5, 10)]), |d| d.campaigns[0].age = 1);
    unsound(aged.clone());
    sound(changed(aged, |d| d.phase = Phase::Running));
}

#[test]
fn closed_holds_the_takings() {
    sound(changed(base(), |d| d.phase = Phase::Closed(15)));
    for takings in [0, 14, 16, 15 + (1 << 32), u64::MAX] {
        unsound(changed(base(), |d| d.phase = Phase::Closed(takings)));
    }
    unsound(changed(Day::blank(), |d| d.phase = Phase::Closed(1)));
}

/// One field of a state, of campaign `place` for six of them.
fn field(day: &mut Day, which: u64, place: usize) -> &mut u64 {
    let c = &mut day.campaigns[place];
    match which {
        0 => &mut day.depth,
        1 => &mut day.width,
        2 => &mut day.count,
        3 => &mut day.views,
        4 => &mut c.price,
        5 => &mut c.budget,
        6 => &mut c.plays,
        7 => &mut c.turns,
        8 => &mut c.age,
        9 => &mut c.named,
        _ => &mut day.paused,
    }
}

#[test]
fn huge_numbers_are_never_sound() {
    for which in 0..11 {
        for place in [0, 1, 2, 63] {
            for value in [1 << 33, 10u64.pow(18), 1 << 63, u64::MAX] {
                unsound(changed(base(), |d| *field(d, which, place) = value));
            }
        }
    }
}

/// The rules for one campaign.
fn campaign_by_the_rules(d: &Day, c: &Campaign) -> bool {
    (1..=1_000_000).contains(&c.price)
        && (c.price..=2_000_000_000).contains(&c.budget)
        && c.age < d.depth
        && c.plays <= c.budget / c.price
        && c.plays <= c.turns
        && c.turns <= c.named
        && c.named <= d.views
}

/// The rules once more, each in wide numbers and without short cuts.
fn sound_by_the_rules(d: &Day) -> bool {
    let power = |b: u64, e: u64| (0..e).fold(1u128, |p, _| p.saturating_mul(b.into()));
    if !(1..=32).contains(&d.depth) || !(1..=16).contains(&d.width) {
        return false;
    }
    if power(d.width, d.depth) > 4_294_967_296 || d.count > 64 || d.views > 4_096 {
        return false;
    }
    if (d.count..64).any(|i| d.paused >> i & 1 == 1) {
        return false;
    }
    let (planned, rest) = d.campaigns.split_at(d.count as usize);
    let each = planned.iter().all(|c| campaign_by_the_rules(d, c));
    let budgets: u128 = planned.iter().map(|c| u128::from(c.budget)).sum();
    let zero = Campaign::default();
    if !each || budgets > 2_000_000_000 || rest.iter().any(|c| *c != zero) {
        return false;
    }
    let wide = u128::from;
    let takings: u128 = planned.iter().map(|c| wide(c.price) * wide(c.plays)).sum();
    let counts = |c: &Campaign| c.plays + c.turns + c.age + c.named;
    let phase = match d.phase {
        Phase::Filling => d.paused == 0 && d.views + planned.iter().map(counts).sum::<u64>() == 0,
        Phase::Running => true,
        Phase::Closed(held) => wide(held) == takings,
    };
    let (k, less) = (d.depth, d.width - 1);
    let gain = |a| power(d.width, a) * power(less, k - a) - power(less, k);
    let turn = power(d.width, k) - power(less, k);
    let claim = |c: &Campaign| wide(c.price) * (wide(c.turns) * turn + gain(c.age));
    let claims: u128 = planned.iter().map(claim).sum();
    phase && claims <= power(d.width, k) * takings
}

/// A state near the edge of soundness.
fn made_up(random: &mut Random) -> Day {
    let width = random.within(1, 4);
    let depth = random.within(1, 4);
    let mut day = running(depth, width, &[]);
    day.count = random.below(4);
    day.views = random.below(5);
    let marks = random.below(1 << day.count);
    day.paused = random.pick(&[0, marks]);
    for place in 0..day.count as usize {
        let price = random.within(1, 3);
        let plays = random.below(3).min(day.views);
        let turns = (plays + random.below(2)).min(day.views);
        let named = (turns + random.below(2)).min(day.views);
        let age = random.below(depth);
        day.campaigns[place] = entry(price, price + random.below(6), [plays, turns, age, named]);
    }
    let takings = day.campaigns.iter().map(|c| c.price * c.plays).sum();
    day.phase = random.pick(&[Phase::Filling, Phase::Running, Phase::Closed(takings)]);
    if random.below(2) == 0 {
        let place = random.below(5) as usize;
        let value = random.edged(u64::MAX);
        let which = random.below(11);
        *field(&mut day, which, place) = random.pick(&[value, 0, 1, 2, 3, 5]);
    }
    day
}

#[test]
fn made_up_states_are_judged_by_the_rules() {
    let mut random = Random(11);
    let mut kinds = [0; 2];
    for _ in 0..100_000 {
        let day = made_up(&mut random);
        let expected = sound_by_the_rules(&day);
        assert_eq!(day.is_sound(), expected, "{day:?}");
        kinds[usize::from(expected)] += 1;
    }
    assert!(kinds.iter().all(|&n| n > 10_000), "{kinds:?}");
}

#[test]
fn operations_on_made_up_sound_states_leave_sound_states() {
    let mut random = Random(12);
    for _ in 0..50_000 {
        let day = made_up(&mut random);
        if !day.is_sound() {
            continue;
        }
        let (set, n) = (random.below(16), random.below(4));
        let outcomes = [
            day.clone().open(2, 2),
            day.clone().add(1, 2),
            day.clone().start(),
            day.clone().view(set),
            day.clone().pause(n),
            day.clone().resume(n),
            day.clone().tally(n),
            day.clone().close(),
        ];
        assert!(outcomes.iter().all(|(next, _)| next.is_sound()), "{day:?}");
    }
}
