//! Accepted triples with one thing changed, and forged ones, which break one rule and keep the others where they can.

use crate::random::Random;
use crate::sides::{Case, Triple};

/// What is forged, and how; none where a triple has no place for it. Each must be rejected.
pub type Forgery = (&'static str, fn(&mut Random, &Case, &Triple) -> Option<Triple>);

const NOBODY: u64 = 64;

pub const FORGERIES: [Forgery; 13] = [
    ("a view not given", not_given),
    ("a view not given, and its figure less by the price", not_given_nor_figured),
    ("a play too many", play_too_many),
    ("a campaign that is not named", not_named),
    ("a campaign outside the plan", outside_the_plan),
    ("an entry above 64", above_64),
    ("a view's figure a cent too small", small_worth),
    ("a campaign's figure a cent too small", small_surplus),
    ("a product that wraps", wrapping_product),
    ("a product that is right modulo 2^32", half_wrapping_product),
    ("a sum of views that wraps", wrapping_views),
    ("a sum of views that is right modulo 2^32", half_wrapping_views),
    ("a sum of campaigns and views that wraps", wrapping_sum),
];

/// One of those for which it holds.
fn one_of(random: &mut Random, n: usize, holds: impl Fn(usize) -> bool) -> Option<usize> {
    let from = random.below(n as u64) as usize;
    (0..n).map(|i| (from + i) % n).find(|&i| holds(i))
}

fn view(random: &mut Random, case: &Case, holds: impl Fn(usize) -> bool) -> Option<usize> {
    one_of(random, case.views.len(), holds)
}

fn campaign(random: &mut Random, case: &Case, holds: impl Fn(usize) -> bool) -> Option<usize> {
    one_of(random, case.campaigns(), holds)
}

fn times(case: &Case, triple: &Triple, campaign: usize) -> u64 {
    triple.allotment[..case.views.len()].iter().filter(|&&entry| entry == campaign as u64).count() as u64
}

fn forged(triple: &Triple, change: impl FnOnce(&mut Triple)) -> Option<Triple> {
    let mut next = triple.clone();
    change(&mut next);
    Some(next)
}

fn not_given(random: &mut Random, case: &Case, triple: &Triple) -> Option<Triple> {
    let j = view(random, case, |j| triple.allotment[j] != NOBODY)?;
    forged(triple, |t| t.allotment[j] = NOBODY)
}

fn not_given_nor_figured(random: &mut Random, case: &Case, triple: &Triple) -> Option<Triple> {
    let price = |j: usize| case.price(triple.allotment[j]) as u64;
    let j = view(random, case, |j| triple.allotment[j] != NOBODY && triple.worth[j] >= price(j))?;
    forged(triple, |t| (t.allotment[j], t.worth[j]) = (NOBODY, t.worth[j] - price(j)))
}

/// A view that goes to a campaign instead, which pays as much or more, and the view's figure with it.
fn given_to(random: &mut Random, case: &Case, triple: &Triple, to: usize, named: bool) -> Option<Triple> {
    let more = |j: usize| case.price(to as u64).checked_sub(case.price(triple.allotment[j]));
    let fits = |j: usize| triple.allotment[j] != to as u64 && case.names(j, to as u64) == named;
    let j = view(random, case, |j| fits(j) && more(j).is_some())?;
    forged(triple, |t| (t.allotment[j], t.worth[j]) = (to as u64, t.worth[j] + more(j).unwrap_or(0) as u64))
}

fn play_too_many(random: &mut Random, case: &Case, triple: &Triple) -> Option<Triple> {
    let to = campaign(random, case, |i| times(case, triple, i) == case.whole(i))?;
    given_to(random, case, triple, to, true)
}

fn not_named(random: &mut Random, case: &Case, triple: &Triple) -> Option<Triple> {
    let to = campaign(random, case, |i| times(case, triple, i) < case.whole(i))?;
    given_to(random, case, triple, to, false)
}

fn outside_the_plan(random: &mut Random, case: &Case, triple: &Triple) -> Option<Triple> {
    let j = view(random, case, |j| triple.allotment[j] == NOBODY)?;
    let outside = case.day.count + random.below(NOBODY - case.day.count + 1);
    (outside < NOBODY).then(|| forged(triple, |t| t.allotment[j] = outside))?
}

fn above_64(random: &mut Random, case: &Case, triple: &Triple) -> Option<Triple> {
    let j = view(random, case, |_| true)?;
    let above = random.pick(&[64, 1 << 8, 1 << 16, 1 << 32, 1 << 63]);
    forged(triple, |t| t.allotment[j] += above).filter(|t| t.allotment[j] > NOBODY)
}

/// The two figures of a view that is played are no more than the price.
fn small_worth(random: &mut Random, case: &Case, triple: &Triple) -> Option<Triple> {
    let j = view(random, case, |j| triple.allotment[j] != NOBODY && triple.worth[j] > 0)?;
    let other = view(random, case, |other| other != j)?;
    forged(triple, |t| (t.worth[j], t.worth[other]) = (t.worth[j] - 1, t.worth[other] + 1))
}

fn small_surplus(random: &mut Random, case: &Case, triple: &Triple) -> Option<Triple> {
    let i = campaign(random, case, |i| triple.surplus[i] > 0 && times(case, triple, i) > 0)?;
    let j = view(random, case, |j| triple.allotment[j] != i as u64)?;
    forged(triple, |t| (t.surplus[i], t.worth[j]) = (t.surplus[i] - 1, t.worth[j] + case.whole(i)))
}

/// A campaign's figure is greater by so much that its product is by a power of two, 2^bits or more.
fn greater_by_a_power(random: &mut Random, case: &Case, triple: &Triple, bits: u32) -> Option<Triple> {
    let i = campaign(random, case, |i| case.whole(i) % 2 == 0)?;
    let more = 1 << (bits - case.whole(i).trailing_zeros());
    forged(triple, |t| t.surplus[i] += more)
}

fn wrapping_product(random: &mut Random, case: &Case, triple: &Triple) -> Option<Triple> {
    greater_by_a_power(random, case, triple, 64)
}

fn half_wrapping_product(random: &mut Random, case: &Case, triple: &Triple) -> Option<Triple> {
    greater_by_a_power(random, case, triple, 32)
}

fn wrapping_views(random: &mut Random, case: &Case, triple: &Triple) -> Option<Triple> {
    let j = view(random, case, |_| true)?;
    let other = view(random, case, |other| other != j)?;
    let more = 1 + random.below(1 << 63);
    let less = 0u64.wrapping_sub(more).checked_add(triple.worth[other])?;
    forged(triple, |t| (t.worth[j], t.worth[other]) = (t.worth[j] + more, less))
}

fn half_wrapping_views(random: &mut Random, case: &Case, triple: &Triple) -> Option<Triple> {
    let j = view(random, case, |_| true)?;
    forged(triple, |t| t.worth[j] += 1 << (32 + random.below(31)))
}

fn wrapping_sum(random: &mut Random, case: &Case, triple: &Triple) -> Option<Triple> {
    let i = campaign(random, case, |_| true)?;
    let j = view(random, case, |_| true)?;
    let more = 1 + triple.worth[j] / case.whole(i);
    let rest = 0u64.wrapping_sub(more * case.whole(i));
    forged(triple, |t| (t.surplus[i], t.worth[j]) = (t.surplus[i] + more, rest + t.worth[j]))
}

/// The triple with one entry changed: to its neighbours, to ends of ranges, and to what is the same in fewer bits.
pub fn other_entries(case: &Case, triple: &Triple, j: usize) -> Vec<Triple> {
    let (entry, n) = (triple.allotment[j], case.day.count);
    let named = case.views[j].trailing_zeros().into();
    let near = [entry.wrapping_sub(1), entry + 1, 0, named, n.wrapping_sub(1), n, 63, 64, 65];
    let far = [entry + 64, entry + (1 << 32), u64::MAX];
    let others = near.into_iter().chain(far).filter(|&other| other != entry);
    others.filter_map(|other| forged(triple, |t| t.allotment[j] = other)).collect()
}

/// The triple with one figure changed by a cent.
pub fn other_figures(case: &Case, triple: &Triple) -> Vec<Triple> {
    let mut all = vec![];
    for cent in [1, u64::MAX] {
        for i in 0..case.campaigns() {
            all.extend(forged(triple, |t| t.surplus[i] = t.surplus[i].wrapping_add(cent)));
        }
        for j in 0..case.views.len() {
            all.extend(forged(triple, |t| t.worth[j] = t.worth[j].wrapping_add(cent)));
        }
    }
    all
}

/// The triple with a cent moved from a campaign's figure to those of as many views as its whole plays, or back, or from
/// a view's figure to another's: the sum stays.
pub fn moved_cent(random: &mut Random, case: &Case, triple: &Triple) -> Option<Triple> {
    let i = campaign(random, case, |i| case.whole(i) <= case.views.len() as u64)?;
    let cent = random.pick(&[1, u64::MAX]);
    let from = view(random, case, |_| true)?;
    let given = (0..case.views.len()).filter(|&j| triple.allotment[j] == i as u64);
    let others = (0..case.views.len()).filter(|&j| triple.allotment[j] != i as u64);
    let views: Vec<usize> = given.chain(others).take(case.whole(i) as usize).collect();
    forged(triple, |t| {
        if random.one_in(4) {
            t.worth[from] = t.worth[from].wrapping_sub(cent);
            t.worth[views[0]] = t.worth[views[0]].wrapping_add(cent);
            return;
        }
        t.surplus[i] = t.surplus[i].wrapping_sub(cent);
        views.iter().for_each(|&j| t.worth[j] = t.worth[j].wrapping_add(cent));
    })
}
