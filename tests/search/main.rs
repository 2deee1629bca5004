//! What the day could have earned: the proved search and check against the second program's, which finds by another
//! method. What one side finds the other's check has to accept, and both take as much.
//!
//! search OUT ROUNDS FIRST [OURS THEIRS CORPUS]: so many rounds of generated inputs, with seeds from FIRST on; then,
//! where they are named, the two programs on the days of the folder CORPUS and on generated days. OUT gets `coverage`,
//! how often each case was seen.

mod changes;
#[path = "../page/days.rs"]
mod days;
mod inputs;
#[path = "../states/library.rs"]
mod library;
#[path = "../states/model.rs"]
mod model;
#[path = "../page/outputs.rs"]
mod outputs;
mod product;
mod programs;
#[path = "../states/random.rs"]
mod random;
mod refusals;
mod seen;
mod sides;
#[path = "../states/states.rs"]
mod states;
mod tally;
mod triples;

use inputs::{chain, first, Input, Kind, TIMED, UNTIMED};
use random::Random;
use second::day::{Day, Phase, MAX_BUDGET};
use sides::{Case, Triple};
use tally::{Found, Tally};

/// The plan of an input, still in Filling, its budgets with cents that buy no play.
fn filling(random: &mut Random, input: &Input) -> Day {
    let (depth, width) = random.pick(&states::PLANS);
    let mut day = Day::blank().open(depth, width).0;
    let needed: u64 = input.prices.iter().zip(&input.plays).map(|(price, plays)| price * plays).sum();
    let mut left = MAX_BUDGET - needed;
    for (price, plays) in input.prices.iter().zip(&input.plays) {
        let rest = random.below(*price).min(left);
        left -= rest;
        day = day.add(*price, price * plays + rest).0;
    }
    assert_eq!(day.count, input.prices.len() as u64, "a plan within the limits");
    day
}

/// The same plan in a phase, with marks and counts that no day need reach.
fn in_phase(random: &mut Random, filling: &Day, phase: u64) -> Day {
    if phase == 0 {
        return filling.clone();
    }
    let mut day = states::counted(random, filling.clone());
    if phase == 2 {
        states::close(&mut day);
    }
    day
}

/// Lengths that are enough, and what the entries hold before.
fn room(random: &mut Random, case: &Case) -> Triple {
    let (m, n) = (case.views.len(), case.campaigns());
    let more = random.pick(&[0, 0, 1, 44]);
    let word = random.pick(&[0, 64, u64::MAX, 0x5a5a_5a5a_0000_0000]);
    Triple::lent([m, n, m].map(|need| need + more), |i| word ^ i)
}

fn see_state(tally: &mut Tally, day: &Day) {
    let seen = &mut tally.seen;
    seen.see(match day.phase {
        Phase::Filling => "Filling",
        Phase::Running => "Running",
        Phase::Closed(_) => "Closed",
    });
    seen.see_if(day.phase == Phase::Running && day.paused != 0, "Running with marks");
    seen.see_if(matches!(day.phase, Phase::Closed(_)) && day.paused != 0, "Closed with marks");
    seen.see_if(day.campaigns.iter().any(|c| c.plays > 0), "plays counted");
}

/// An input in any phase and with any room; it has to be taken.
fn found(tally: &mut Tally, random: &mut Random, input: &Input) -> (Case, Found) {
    let phase = random.below(3);
    let day = filling(random, input);
    let case = tally.case(in_phase(random, &day, phase), &input.views);
    see_state(tally, &case.day);
    let lent = room(random, &case);
    let found = tally.taken(&case, &lent);
    (case, found)
}

/// The most that an allotment of the views from j on takes, by trying each.
fn best(input: &Input, j: usize, left: &mut [u64]) -> u64 {
    let Some(&set) = input.views.get(j) else {
        return 0;
    };
    let mut most = best(input, j + 1, left);
    for i in 0..left.len() {
        if set >> i & 1 == 1 && left[i] > 0 {
            left[i] -= 1;
            most = most.max(input.prices[i] + best(input, j + 1, left));
            left[i] += 1;
        }
    }
    most
}

fn small(tally: &mut Tally, seed: u64) {
    let mut random = Random::new(seed);
    for _ in 0..12_000 {
        let input = inputs::small(&mut random);
        let (case, found) = found(tally, &mut random, &input);
        if found.takings != u128::from(best(&input, 0, &mut input.plays.clone())) {
            tally.differ(&case, &found.triples[0], "an allotment that was tried takes more or less");
        }
        tally.seen.see("small, every allotment tried");
        let spare = found.triples[0].allotment[..input.views.len()].contains(&64);
        tally.seen.see_if(spare && !input.views.contains(&0), "small, not all views given though all are named");
        for triple in &found.triples {
            changed(tally, &mut random, &case, triple);
            forged(tally, &mut random, &case, triple);
        }
    }
}

/// Some single changes of an accepted triple, and a cent moved in it.
fn changed(tally: &mut Tally, random: &mut Random, case: &Case, triple: &Triple) {
    let m = case.views.len() as u64;
    if m > 0 {
        for other in changes::other_entries(case, triple, random.below(m) as usize) {
            let verdict = tally.verdict(case, &other);
            tally.seen.see(&format!("an entry changed, {verdict}"));
        }
    }
    if let Some(other) = changes::moved_cent(random, case, triple) {
        let verdict = tally.verdict(case, &other);
        tally.seen.see(&format!("a cent moved, {verdict}"));
    }
    let figures = changes::other_figures(case, triple);
    if let Some(other) = figures.get(random.below(figures.len() as u64) as usize) {
        tally.rejected(case, other, "a figure is a cent more or less");
        tally.seen.see("a figure a cent more or less, rejected");
    }
}

/// Every single change of an accepted triple.
fn changed_everywhere(tally: &mut Tally, case: &Case, triple: &Triple) {
    for other in changes::other_figures(case, triple) {
        tally.rejected(case, &other, "a figure is a cent more or less");
    }
    for j in 0..case.views.len() {
        for other in changes::other_entries(case, triple, j) {
            tally.verdict(case, &other);
        }
    }
}

fn forged(tally: &mut Tally, random: &mut Random, case: &Case, triple: &Triple) {
    for (name, forge) in changes::FORGERIES {
        if let Some(other) = forge(random, case, triple) {
            tally.rejected(case, &other, name);
            tally.seen.see(&format!("forged: {name}"));
        }
    }
}

fn kind(tally: &mut Tally, random: &mut Random, (name, make): Kind) {
    for round in 0..8 {
        let input = make(random);
        let (case, found) = found(tally, random, &input);
        tally.seen.see(&format!("kind: {name}"));
        for triple in &found.triples {
            changed(tally, random, &case, triple);
            forged(tally, random, &case, triple);
        }
        if round == 0 {
            found.triples.iter().for_each(|triple| changed_everywhere(tally, &case, triple));
        }
    }
}

fn kinds(tally: &mut Tally, seed: u64) {
    let mut random = Random::new(seed);
    TIMED.into_iter().chain(UNTIMED).for_each(|each| kind(tally, &mut random, each));
    for _ in 0..200 {
        kind_of_any(tally, &mut random);
    }
}

/// Any sizes, once more without the changes.
fn kind_of_any(tally: &mut Tally, random: &mut Random) {
    let input = UNTIMED[0].1(random);
    let (case, found) = found(tally, random, &input);
    found.triples.iter().for_each(|triple| forged(tally, random, &case, triple));
}

/// The only allotment of a chain in which all play.
fn all_play(n: usize, alone_first: bool) -> Vec<u64> {
    let mut entries: Vec<u64> = (1..n as u64).collect();
    entries.insert(if alone_first { 0 } else { n - 1 }, 0);
    entries
}

/// A chain with and without its last and cheapest campaign. How many views are given to another by the product is the
/// length of the exchange, as far as it can be seen from outside.
fn chain_of(tally: &mut Tally, random: &mut Random, n: usize, alone_first: bool, one_price: bool) {
    let mut input = chain(n, alone_first);
    if one_price {
        input.prices.fill(10);
    }
    let before = Input {
        prices: input.prices[..n - 1].to_vec(),
        plays: vec![1; n - 1],
        views: input.views.iter().map(|set| set & first(n - 1)).collect(),
    };
    let (case, after) = found(tally, random, &input);
    for triple in &after.triples {
        if triple.allotment[..n] != all_play(n, alone_first) {
            tally.differ(&case, triple, "not the only allotment in which all play");
        }
    }
    let before = found(tally, random, &before).1;
    let allotments = [&before, &after].map(|found| &found.triples[0].allotment[..n]);
    let length = (0..n).filter(|&j| allotments[0][j] != allotments[1][j]).count();
    tally.seen.see(&format!("chain of {length:2}"));
}

fn chains(tally: &mut Tally, seed: u64) {
    let mut random = Random::new(seed);
    for n in 1..=inputs::MOST_CAMPAIGNS {
        for (alone_first, one_price) in [(false, false), (false, true), (true, false), (true, true)] {
            chain_of(tally, &mut random, n, alone_first, one_price);
        }
    }
}

/// The phase, the marks and the counts do not matter: as much is taken, and what is found for one state is accepted for
/// the others with the same plan.
fn phases(tally: &mut Tally, seed: u64) {
    let mut random = Random::new(seed);
    for _ in 0..60 {
        let input = UNTIMED[0].1(&mut random);
        let filling = filling(&mut random, &input);
        let cases = [0, 1, 1, 2, 2].map(|phase| tally.case(in_phase(&mut random, &filling, phase), &input.views));
        let all = cases.each_ref().map(|case| {
            let lent = room(&mut random, case);
            tally.taken(case, &lent)
        });
        for (case, found) in cases.iter().zip(&all) {
            see_state(tally, &case.day);
            if found.takings != all[0].takings {
                tally.differ(case, &found.triples[0], "another phase takes more or less");
            }
            all.iter().flat_map(|found| &found.triples).for_each(|triple| tally.accepted(case, triple));
        }
    }
}

/// States with a number changed, sound or not.
fn changed_states(tally: &mut Tally, seed: u64) {
    let mut random = Random::new(seed);
    for _ in 0..3_000 {
        let mut day = states::made_up(&mut random);
        states::mutate(&mut random, &mut day);
        let n = day.count.min(64) as usize;
        let views: Vec<u64> = (0..random.below(20)).map(|_| random.next() & first(n)).collect();
        let Some(case) = Case::new(day, views) else {
            continue;
        };
        let lent = room(&mut random, &case);
        match tally.search(&case, &lent).err() {
            None => tally.seen.see("a number of a state changed, taken"),
            Some(1) => tally.seen.see("a number of a state changed, refused 1"),
            other => tally.differ(&case, &lent, &format!("refused {other:?}, though the names are in the plan")),
        }
    }
}

fn made_by_hand(tally: &mut Tally) {
    for rule in triples::RULES {
        let mut day = Day::blank().open(1, 1).0;
        for &(price, budget) in rule.plan {
            day = day.add(price, budget).0;
        }
        let case = tally.case(day, rule.views);
        for (rows, verdict) in [(rule.accepted, "accepted"), (rule.rejected, "rejected")] {
            for (allotment, surplus, worth) in rows {
                let [allotment, surplus, worth] = [allotment, surplus, worth].map(|words| words.to_vec());
                let triple = Triple { allotment, surplus, worth };
                if tally.verdict(&case, &triple) != verdict {
                    tally.differ(&case, &triple, &format!("{}: not {verdict}", rule.name));
                }
                tally.seen.see(&format!("made by hand: {}, {verdict}", rule.name));
            }
        }
    }
}

fn main() {
    let args: Vec<String> = std::env::args().skip(1).collect();
    let [out, rounds, first, programs @ ..] = &args[..] else { panic!("search OUT ROUNDS FIRST [OURS THEIRS CORPUS]") };
    let [rounds, first] = [rounds, first].map(|number| number.parse::<u64>().expect("a number"));
    let mut tally = Tally::new();
    tally.group("triples made by hand", made_by_hand);
    for seed in first..first + rounds {
        tally.group("small inputs", |t| small(t, seed));
        tally.group("inputs of every kind", |t| kinds(t, seed));
        tally.group("chains", |t| chains(t, seed));
        tally.group("phases", |t| phases(t, seed));
        tally.group("changed states", |t| changed_states(t, seed));
        tally.group("questions", |t| refusals::questions(t, seed));
        tally.group("lengths of what is lent", |t| refusals::rooms(t, seed));
        tally.group("one rule broken", |t| refusals::broken_rules(t, seed));
        tally.group("words that are no head", |t| refusals::no_heads(t, seed));
    }
    if let [ours, theirs, corpus] = programs {
        tally.group("programs", |t| programs::programs(t, [ours, theirs], corpus, first));
    }
    tally.end(out);
}
