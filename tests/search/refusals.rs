//! Questions that fail, alone and at once, and heads that are none.

use crate::inputs::first;
use crate::product::{self, STATUS_ACCEPTED, STATUS_NO_HEAD};
use crate::random::Random;
use crate::seen::{failing, QUESTIONS};
use crate::sides::Triple;
use crate::tally::Tally;
use crate::{model, states};
use second::day::Day;

/// What an input shows, once a question has been the one to answer; 0 where it is taken.
type Shown = Vec<(u64, &'static str)>;

/// How many views are handed in: more than 256, or no more.
fn length(random: &mut Random, too_many: bool, shown: &mut Shown) -> usize {
    if !too_many {
        return random.pick(&[1, 2, 30, 255, 256]);
    }
    let (length, what) = random.pick(&[(257, "257 views"), (258, "more views"), (4_096, "more views")]);
    shown.push((19, what));
    length
}

/// Views of a plan with fewer than 64 campaigns; one of them may name a campaign that the plan lacks.
fn views(random: &mut Random, day: &Day, length: usize, outside: bool, shown: &mut Shown) -> Vec<u64> {
    let mut views: Vec<u64> = (0..length).map(|_| random.next() & states::planned(day)).collect();
    if outside {
        let (place, place_name) = random.pick(&[(0, "first"), (length / 2, "middle"), (length - 1, "last")]);
        views[place] |= 1 << random.pick(&[day.count, 63]);
        shown.push((13, place_name));
    }
    views
}

/// Lengths of the three lent slices: enough, or at least one of them too short.
fn lengths(random: &mut Random, needed: [usize; 3], short: bool) -> [usize; 3] {
    let which = if short { 1 + random.below(7) } else { 0 };
    let mut lengths = needed;
    for (i, length) in lengths.iter_mut().enumerate() {
        if which >> i & 1 == 1 {
            *length -= random.pick(&[1, *length]);
        } else {
            *length += random.pick(&[0, 0, 1, 300]);
        }
    }
    lengths
}

/// A state that breaks one rule.
fn unsound(random: &mut Random, day: &Day) -> Day {
    let mut broken = states::broken(day);
    let which = random.below(broken.len() as u64) as usize;
    broken.swap_remove(which).1
}

/// Every combination of the four questions fails: the first of them in their order is answered.
pub fn questions(tally: &mut Tally, seed: u64) {
    let mut random = Random::new(seed);
    for round in 0..60 << QUESTIONS.len() {
        let bits = round % (1 << QUESTIONS.len());
        let fails = |i: usize| bits >> i & 1 == 1;
        let (day, mut shown) = (states::sturdy(&mut random), vec![]);
        let length = length(&mut random, fails(1), &mut shown);
        let views = views(&mut random, &day, length, fails(2), &mut shown);
        let lengths = lengths(&mut random, [length, day.count as usize, length], fails(3));
        let lent = Triple::lent(lengths, |i| !i);
        let day = if fails(0) { unsound(&mut random, &day) } else { day };
        let case = tally.case(day, &views);
        let due = (0..QUESTIONS.len()).find(|&i| fails(i)).map(|i| QUESTIONS[i]);
        let answer = tally.search(&case, &lent).err();
        if answer != due {
            tally.differ(&case, &lent, &format!("{}, and the answer is {answer:?}", failing(bits)));
        }
        tally.seen.see(&failing(bits));
        shown.retain(|(question, _)| Some(*question) == due);
        shown.iter().for_each(|(question, what)| tally.seen.see(&format!("refused {question}: {what}")));
    }
    empty(tally);
}

/// Every length of each of the three lent slices: none, one too short, as many as needed, one and many more. The check
/// is also handed what was found, cut to these lengths or lengthened; the last view names none, so that what is cut off
/// may be the entry or the figure of a view that goes to nobody.
pub fn rooms(tally: &mut Tally, seed: u64) {
    let mut random = Random::new(seed);
    for round in 0..4 * 125 {
        let day = states::sturdy(&mut random);
        let named = (0..1 + random.below(5)).map(|_| random.next() & states::planned(&day));
        let views: Vec<u64> = named.chain([0]).collect();
        let (m, n) = (views.len(), day.count as usize);
        let which = [round % 5, round / 5 % 5, round / 25 % 5];
        let lengths = [0, 1, 2].map(|i| {
            let need = [m, n, m][i];
            [0, need - 1, need, need + 1, need + 300][which[i]]
        });
        let short: Vec<usize> = (0..3).filter(|&i| which[i] < 2).collect();
        let case = tally.case(day, &views);
        let lent = Triple::lent(lengths, |i| !i);
        let due = if short.is_empty() { None } else { Some(18) };
        if tally.search(&case, &lent).err() != due {
            tally.differ(&case, &lent, &format!("lengths {lengths:?}: the answer is not {due:?}"));
        }
        for mut found in tally.taken(&case, &Triple::lent([m, n, m], |i| i)).triples {
            let Triple { allotment, surplus, worth } = &mut found;
            [allotment, surplus, worth].into_iter().zip(lengths).for_each(|(entries, n)| entries.resize(n, 64));
            tally.checked(&case, &found, due.unwrap_or(STATUS_ACCEPTED));
        }
        if let [i] = short[..] {
            tally.seen.see(["allotment alone too short", "surplus alone too short", "worth alone too short"][i]);
        }
        tally.seen.see_if(which == [2; 3], "entries as many as needed");
        tally.seen.see_if(which.iter().all(|&w| w > 2), "entries beyond");
    }
}

/// No campaigns and no views need no entries.
fn empty(tally: &mut Tally) {
    let case = tally.case(Day::blank(), &[]);
    let found = tally.taken(&case, &Triple::lent([0; 3], |i| i));
    if found.takings != 0 {
        tally.differ(&case, &found.triples[0], "takings without a view");
    }
    tally.seen.see("no entry to lend");
}

/// Every rule of soundness broken alone gets 1, whatever else fails.
pub fn broken_rules(tally: &mut Tally, seed: u64) {
    let mut random = Random::new(seed);
    for _ in 0..12 {
        let sound = states::sturdy(&mut random);
        for (rule, day) in states::broken(&sound) {
            let n = sound.count as usize;
            for (views, lengths) in [(vec![first(n)], [9, 64, 9]), (vec![u64::MAX; 257], [0; 3])] {
                let lent = Triple::lent(lengths, |i| !i);
                let case = tally.case(day.clone(), &views);
                if tally.search(&case, &lent).err() != Some(1) {
                    tally.differ(&case, &lent, &format!("taken, though it breaks a rule: {rule}"));
                }
            }
        }
    }
}

/// Phases that are none and takings held outside Closed get 100, whatever else fails, and nothing is written.
pub fn no_heads(tally: &mut Tally, seed: u64) {
    let mut random = Random::new(seed);
    for _ in 0..20 {
        let day = states::sturdy(&mut random);
        let good = model::lent(&day).expect("a day fits");
        let phases = [3, 4, 1 << 32, u64::MAX].map(|phase| (phase, 0));
        let held = [(0, 1), (1, 1), (0, u64::MAX), (1, u64::MAX), (3, 1)];
        for (phase, takings) in phases.into_iter().chain(held) {
            for (views, lengths) in [(vec![1; 3], [3, 64, 3]), (vec![u64::MAX; 257], [0, 0, 300])] {
                let mut state = good.clone();
                (state.head[0], state.head[1]) = (phase, takings);
                let lent = Triple::lent(lengths, |i| !i);
                let mut triple = lent.clone();
                let statuses = [product::search(&state, &views, &mut triple), product::check(&state, &views, &lent)];
                if statuses != [STATUS_NO_HEAD; 2] || triple != lent {
                    tally.fail(&format!("{state:?}\nviews: {views:?}\nstatuses {statuses:?}, left: {triple:?}"));
                }
                tally.passed += 1;
                tally.seen.see("no head");
            }
        }
    }
}
