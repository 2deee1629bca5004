//! What a day could have earned: the search and its check.

use crate::common::{best_allotment, filling, ok, running, Random};
use second::greatest::{accepts, greatest, MAX_KNOWN_VIEWS, NOBODY};
use second::{Answer, Day, Phase};

/// An allotment with the figures of campaigns and views.
#[derive(Clone, Debug, PartialEq, Eq)]
struct Triple {
    allotment: Vec<u64>,
    campaigns: Vec<u64>,
    views: Vec<u64>,
}

impl Triple {
    /// So many entries of one value.
    fn lent(views: usize, campaigns: usize, value: u64) -> Triple {
        Triple {
            allotment: vec![value; views],
            campaigns: vec![value; campaigns],
            views: vec![value; views],
        }
    }

    fn find(&mut self, day: &Day, views: &[u64]) -> Result<u64, u64> {
        let (allotment, figures) = (&mut self.allotment, &mut self.campaigns);
        greatest(day, views, allotment, figures, &mut self.views)
    }

    fn check(&self, day: &Day, views: &[u64]) -> Result<bool, u64> {
        accepts(day, views, &self.allotment, &self.campaigns, &self.views)
    }
}

/// The greatest takings with a triple, which the check accepts.
#[track_caller]
fn found(day: &Day, views: &[u64]) -> (u64, Triple) {
    let mut triple = Triple::lent(views.len(), day.count as usize, 7);
    let takings = triple.find(day, views).unwrap();
    assert_eq!(triple.check(day, views), Ok(true), "{views:?} {triple:?}");
    assert!(fits(day, views, &triple), "{views:?} {triple:?}");
    assert_eq!(given(day, &triple.allotment), u128::from(takings));
    (takings, triple)
}

/// The prices that an allotment gives.
fn given(day: &Day, allotment: &[u64]) -> u128 {
    let price = |&entry: &u64| match entry {
        NOBODY => 0,
        i => u128::from(day.campaigns[i as usize].price),
    };
    allotment.iter().map(price).sum()
}

/// The words of the request, one after the other.
fn fits(day: &Day, views: &[u64], triple: &Triple) -> bool {
    let count = day.count as usize;
    let names = |j: usize, i: u64| i < 64 && views[j] >> i & 1 == 1;
    for (j, &entry) in triple.allotment.iter().enumerate() {
        if entry != 64 && !names(j, entry) {
            return false;
        }
    }
    let wide = u128::from;
    let mut sum: u128 = triple.views.iter().map(|&f| wide(f)).sum();
    for i in 0..count {
        let whole = day.campaigns[i].budget / day.campaigns[i].price;
        let won = triple.allotment.iter().filter(|&&e| e == i as u64).count();
        if won as u64 > whole {
            return false;
        }
        sum += wide(triple.campaigns[i]) * wide(whole);
        for j in 0..views.len() {
            let figures = wide(triple.campaigns[i]) + wide(triple.views[j]);
            if names(j, i as u64) && figures < wide(day.campaigns[i].price) {
                return false;
            }
        }
    }
    sum == given(day, &triple.allotment)
}

/// The greatest takings by trying every allotment.
fn by_trying(day: &Day, views: &[u64]) -> u64 {
    let planned = &day.campaigns[..day.count as usize];
    let prices: Vec<u64> = planned.iter().map(|c| c.price).collect();
    let mut plays: Vec<u64> = planned.iter().map(|c| c.budget / c.price).collect();
    best_allotment(views, &prices, &mut plays)
}

/// A random plan of `count` campaigns that buy up to `plays` plays each.
fn plan(random: &mut Random, count: u64, dearest: u64, plays: u64) -> Vec<(u64, u64)> {
    (0..count)
        .map(|_| {
            let price = random.within(1, dearest);
            (price, price * random.within(1, plays) + random.below(price))
        })
        .collect()
}

/// Random sets of the first `count` campaigns, `often` in 16 for each name.
fn some_views(random: &mut Random, length: u64, count: u64, often: u64) -> Vec<u64> {
    let mut set = |_| (0..count).fold(0, |set, i| set | u64::from(random.below(16) < often) << i);
    (0..length).map(&mut set).collect()
}

#[test]
fn listing_earned_all_it_could() {
    let day = filling(2, 2, &[(5, 10), (3, 6)]);
    let (takings, _) = found(&day, &[0b11, 0b11, 0b11, 0b01, 0b10]);
    assert_eq!(takings, 16);
}

/// Prices and budgets, views, and the greatest takings.
type Case = (&'static [(u64, u64)], &'static [u64], u64);

#[test]
fn small_cases() {
    let cases: [Case; 9] = [
        (&[], &[], 0),
        (&[], &[0, 0], 0),
        (&[(5, 10)], &[], 0),
        (&[(5, 10)], &[0, 0, 0], 0),
        (&[(5, 14)], &[1, 1, 1], 10),
        // The dearer must leave the first view to the other.
        (&[(5, 5), (3, 3)], &[0b11, 0b01], 8),
        (&[(3, 3), (5, 5)], &[0b11, 0b10], 8),
        // Equal prices, a chain through three campaigns.
        (&[(4, 4), (4, 4), (4, 4)], &[0b011, 0b110, 0b001], 12),
        (&[(4, 4), (3, 3), (2, 2)], &[0b111, 0b111, 0b111, 0b111], 9),
    ];
    for (plan, views, expected) in cases {
        let day = filling(1, 1, plan);
        assert_eq!(found(&day, views).0, expected, "{plan:?} {views:?}");
        assert_eq!(by_trying(&day, views), expected);
    }
}

#[test]
fn small_searches_match_every_allotment_tried() {
    let mut random = Random(61);
    for _ in 0..20_000 {
        let count = random.within(0, 4);
        let dearest = random.pick(&[1, 3, 9, 1_000_000]);
        let day = filling(1, 1, &plan(&mut random, count, dearest, 2));
        let (length, often) = (random.below(7), random.within(1, 16));
        let views = some_views(&mut random, length, count, often);
        assert_eq!(found(&day, &views).0, by_trying(&day, &views));
    }
}

#[test]
fn large_searches_pass_the_check() {
    let mut random = Random(62);
    for _ in 0..300 {
        let count = random.pick(&[1, 5, 20, 63, 64]);
        let dearest = random.pick(&[1, 2, 9, 1_000, 300_000]);
        let plays = random.pick(&[1, 4, 60, 100]);
        let day = filling(1, 1, &plan(&mut random, count, dearest, plays));
        let length = random.pick(&[1, 64, 255, 256]);
        let often = random.pick(&[1, 2, 8, 16]);
        let views = some_views(&mut random, length, count, often);
        found(&day, &views);
    }
}

#[test]
fn greatest_whole_plays_and_prices() {
    let day = filling(1, 1, &[(1, 1_000_000_000), (1_000_000, 1_000_000_000)]);
    let (takings, triple) = found(&day, &[0b11; 256]);
    assert_eq!(takings, 256_000_000);
    assert_eq!(triple.allotment, [1; 256]);
    let (takings, _) = found(&filling(1, 1, &[(1, 2_000_000_000)]), &[1; 256]);
    assert_eq!(takings, 256);
}

#[test]
fn the_plan_comes_in_any_phase_with_any_counts() {
    let filled = filling(2, 2, &[(5, 10), (3, 6)]);
    let views = [0b11, 0b11, 0b11, 0b01, 0b10, 0b10];
    let expected = found(&filled, &views);
    assert_eq!(expected.0, 16);
    let started = ok(filled.start());
    assert_eq!(found(&started, &views), expected);
    let (played, _) = ok(started.pause(1)).view(0b11);
    assert_eq!(found(&played, &views), expected);
    let (closed, _) = played.close();
    assert_eq!(found(&closed, &views), expected);
    // More names than the width allows are no question here.
    assert_eq!(found(&filling(1, 1, &[(1, 1); 64]), &[u64::MAX]).0, 1);
}

#[test]
fn whatever_count_the_state_holds() {
    let lent = Triple::lent(300, 64, 9);
    let mut day = running(1, 1, &[(1, 3)]);
    for views in [0, 1, 255, 256, 257, 4_096] {
        day.views = views;
        assert_eq!(found(&day, &[1; 256]).0, 3);
        assert_eq!(found(&day, &[]).0, 0);
        refused(&day, &[1; 257], &lent, 19);
        refused(&day, &[1; 4_096], &lent, 19);
    }
}

/// Both calls are refused with this number and leave all entries.
#[track_caller]
fn refused(day: &Day, views: &[u64], lent: &Triple, number: u64) {
    let mut triple = lent.clone();
    assert_eq!(triple.find(day, views), Err(number));
    assert_eq!(triple, *lent);
    assert_eq!(lent.check(day, views), Err(number));
}

#[test]
fn questions_in_their_order() {
    let day = filling(1, 1, &[(5, 10), (3, 6)]);
    let mut unsound = day.clone();
    unsound.phase = Phase::Closed(1);
    let (short, long) = (Triple::lent(0, 0, 9), Triple::lent(300, 64, 9));
    for lent in [&short, &long] {
        refused(&unsound, &[0b100; 257], lent, 1);
        refused(&unsound, &[], lent, 1);
        refused(&day, &[0b100; 257], lent, 19);
        refused(&day, &[0; 257], lent, 19);
        refused(&day, &[0b100; 256], lent, 13);
        refused(&day, &[0b11, 1 << 63], lent, 13);
    }
    refused(&Day::blank(), &[1], &long, 13);
    refused(&day, &[0b11; 256], &short, 18);
    assert_eq!(Triple::lent(256, 2, 9).find(&day, &[0b11; 256]), Ok(16));
    assert_eq!(MAX_KNOWN_VIEWS, 256);
}

#[test]
fn unsound_marks_get_1() {
    let lent = Triple::lent(300, 64, 9);
    let mut day = filling(1, 1, &[(5, 10), (3, 6)]);
    day.paused = 0b01;
    refused(&day, &[0b11], &lent, 1);
    day = ok(filling(1, 1, &[(5, 10), (3, 6)]).start());
    day.paused = 0b100;
    refused(&day, &[0b11], &lent, 1);
    refused(&day, &[0b100; 257], &lent, 1);
    // A mark in the plan is sound and lends the views no new names.
    day.paused = 0b11;
    assert_eq!(found(&day, &[0b11, 0b01]).0, 10);
}

#[test]
fn too_few_entries_lent() {
    let day = filling(1, 1, &[(5, 10), (3, 6)]);
    let views = [0b11, 0b11, 0b01];
    for lengths in 0..4 * 4 * 3 {
        let (a, v, c) = (lengths % 4, lengths / 4 % 4, lengths / 16);
        let mut lent = Triple::lent(3, c, 9);
        lent.allotment.truncate(a);
        lent.views.truncate(v);
        if (a, v, c) == (3, 3, 2) {
            assert_eq!(lent.find(&day, &views), Ok(13));
        } else {
            refused(&day, &views, &lent, 18);
        }
    }
    // Nothing is lent where nothing is needed.
    let mut none = Triple::lent(0, 0, 9);
    assert_eq!(none.find(&Day::blank(), &[]), Ok(0));
    assert_eq!(none.check(&Day::blank(), &[]), Ok(true));
    assert_eq!(Triple::lent(0, 2, 9).find(&day, &[]), Ok(0));
}

#[test]
fn entries_beyond_keep_their_values() {
    let day = filling(1, 1, &[(5, 10), (3, 6)]);
    let views = [0b11, 0b11, 0b01];
    let mut triple = Triple::lent(5, 4, u64::MAX);
    assert_eq!(triple.find(&day, &views), Ok(13));
    assert_eq!(triple.allotment[3..], [u64::MAX; 2]);
    assert_eq!(triple.campaigns[2..], [u64::MAX; 2]);
    assert_eq!(triple.views[3..], [u64::MAX; 2]);
    // The check does not look at them.
    assert_eq!(triple.check(&day, &views), Ok(true));
}

/// The triple whose digits in base `values` are those of `number`.
fn numbered(mut number: u64, views: usize, campaigns: usize, entries: &[u64]) -> Triple {
    let mut triple = Triple::lent(views, campaigns, 0);
    let mut digit = |values: u64| {
        let digit = number % values;
        number /= values;
        digit
    };
    for entry in &mut triple.allotment {
        *entry = entries[digit(entries.len() as u64) as usize];
    }
    let figures = triple.campaigns.iter_mut().chain(&mut triple.views);
    figures.for_each(|figure| *figure = digit(4));
    triple
}

#[test]
fn check_accepts_exactly_the_greatest_triples() {
    let entries = [0, 1, 2, 64, 65];
    let plans: [&[(u64, u64)]; 4] = [
        &[(2, 2), (1, 1)],
        &[(2, 5), (3, 3)],
        &[(1, 2), (1, 1)],
        &[(3, 6), (2, 4)],
    ];
    for plan in plans {
        let day = filling(1, 1, plan);
        for sets in 0..16 {
            let views = [sets & 0b11, sets >> 2];
            let best = by_trying(&day, &views);
            let mut accepted = 0;
            for number in 0..5u64.pow(2) * 4u64.pow(4) {
                let triple = numbered(number, 2, 2, &entries);
                let answer = triple.check(&day, &views).unwrap();
                assert_eq!(answer, fits(&day, &views, &triple), "{triple:?}");
                if answer {
                    assert_eq!(given(&day, &triple.allotment), u128::from(best));
                    accepted += 1;
                }
            }
            assert!(accepted > 0, "{plan:?} {views:?}");
        }
    }
}

#[test]
fn check_turns_away_spoilt_triples() {
    let mut random = Random(63);
    let mut still_fit = 0;
    for _ in 0..50_000 {
        let count = random.within(1, 4);
        let day = filling(1, 1, &plan(&mut random, count, 5, 3));
        let length = random.within(1, 6);
        let views = some_views(&mut random, length, count, 9);
        let (best, mut triple) = found(&day, &views);
        let (i, j) = (random.below(count) as usize, random.below(length) as usize);
        let figure = random.pick(&[0, 1, 2, 3, 4, 5, 1 << 63, u64::MAX]);
        match random.below(3) {
            0 => triple.allotment[j] = random.pick(&[0, 1, 2, 3, 63, 64, 65, 128, u64::MAX]),
            1 => triple.campaigns[i] = figure,
            _ => triple.views[j] = figure,
        }
        let expected = fits(&day, &views, &triple);
        assert_eq!(
            triple.check(&day, &views),
            Ok(expected),
            "{views:?} {triple:?}"
        );
        if expected {
            still_fit += 1;
            assert_eq!(given(&day, &triple.allotment), u128::from(best));
        }
    }
    assert!(still_fit > 1_000, "{still_fit}");
}

/// A plan and views that triples made by hand are held against.
struct Bench {
    day: Day,
    views: Vec<u64>,
}

impl Bench {
    fn new(plan: &[(u64, u64)], views: &[u64]) -> Bench {
        Bench {
            day: filling(1, 1, plan),
            views: views.to_vec(),
        }
    }

    /// The check's word on an allotment with figures of campaigns and views;
    /// the words of the request say the same.
    #[track_caller]
    fn judge(&self, allotment: &[u64], campaigns: &[u64], views: &[u64]) -> bool {
        let triple = Triple {
            allotment: allotment.to_vec(),
            campaigns: campaigns.to_vec(),
            views: views.to_vec(),
        };
        let answer = triple.check(&self.day, &self.views).unwrap();
        assert_eq!(answer, fits(&self.day, &self.views, &triple));
        answer
    }

    #[track_caller]
    fn taken(&self, allotment: &[u64], campaigns: &[u64], views: &[u64]) {
        assert!(self.judge(allotment, campaigns, views));
    }

    #[track_caller]
    fn turned_away(&self, allotment: &[u64], campaigns: &[u64], views: &[u64]) {
        assert!(!self.judge(allotment, campaigns, views));
    }
}

/// The greatest is 8: the first view goes to campaign 1, the second to 0.
fn two_at_5_and_3() -> Bench {
    Bench::new(&[(5, 5), (3, 3)], &[0b11, 0b01])
}

#[test]
fn allotments_that_are_not_the_greatest() {
    let bench = two_at_5_and_3();
    bench.taken(&[1, 0], &[5, 3], &[0, 0]);
    bench.taken(&[1, 0], &[2, 0], &[3, 3]);
    for less in [[0, 64], [64, 0], [1, 64], [64, 64]] {
        // Figures that reach every price sum to more than it takes.
        bench.turned_away(&less, &[5, 3], &[0, 0]);
        bench.turned_away(&less, &[2, 0], &[3, 3]);
    }
    // Figures that sum to what it takes leave a price unreached.
    bench.turned_away(&[0, 64], &[5, 0], &[0, 0]);
    bench.turned_away(&[64, 0], &[2, 0], &[0, 3]);
    bench.turned_away(&[1, 64], &[0, 3], &[0, 0]);
    bench.turned_away(&[64, 64], &[0, 0], &[0, 0]);
    // The greatest, but with figures that sum to a cent more.
    bench.turned_away(&[1, 0], &[6, 3], &[0, 0]);
    bench.turned_away(&[1, 0], &[5, 3], &[0, 1]);
    bench.turned_away(&[1, 0], &[5, 3], &[1, 0]);
}

#[test]
fn figures_count_as_often_as_whole_plays() {
    // Two whole plays and one view: a figure of the campaign counts twice.
    let bench = Bench::new(&[(2, 5)], &[1]);
    bench.taken(&[0], &[0], &[2]);
    bench.turned_away(&[0], &[2], &[0]);
    bench.turned_away(&[0], &[1], &[1]);
    bench.turned_away(&[0], &[1], &[0]);
    // Unnamed campaigns and views of nobody have no price to reach, but count.
    let bench = Bench::new(&[(2, 2), (9, 9)], &[0b01, 0]);
    bench.taken(&[0, 64], &[2, 0], &[0, 0]);
    bench.turned_away(&[0, 64], &[2, 1], &[0, 0]);
    bench.turned_away(&[0, 64], &[2, 0], &[0, 1]);
    let bench = Bench::new(&[], &[0]);
    bench.taken(&[64], &[], &[0]);
    bench.turned_away(&[64], &[], &[1]);
}

#[test]
fn entries_not_named() {
    // Equal prices and enough plays: only the naming is amiss.
    let bench = Bench::new(&[(2, 4), (2, 4)], &[0b10, 0]);
    bench.taken(&[1, 64], &[0, 0], &[2, 0]);
    bench.turned_away(&[0, 64], &[0, 0], &[2, 0]);
    bench.turned_away(&[64, 1], &[0, 0], &[2, 0]);
    bench.turned_away(&[64, 0], &[0, 0], &[2, 0]);
    // Outside the plan, and 1 modulo 64, 2^8, 2^16, 2^32 and so on.
    for entry in [2, 63, 65, 129, 257, 65_537, (1 << 32) + 1, (1 << 63) + 1] {
        bench.turned_away(&[entry, 64], &[0, 0], &[2, 0]);
    }
    // Nobody is 64 alone.
    let bench = Bench::new(&[(2, 4)], &[0, 1]);
    bench.taken(&[64, 0], &[0], &[0, 2]);
    for entry in [65, 128, 320, 65_600, (1 << 32) + 64, u64::MAX] {
        bench.turned_away(&[entry, 0], &[0], &[0, 2]);
    }
}

#[test]
fn one_play_too_many() {
    // In all of these each price is reached and the sums agree.
    let bench = Bench::new(&[(2, 3)], &[1, 1]);
    bench.taken(&[0, 64], &[2], &[0, 0]);
    bench.turned_away(&[0, 0], &[0], &[2, 2]);
    let bench = Bench::new(&[(2, 5)], &[1, 1, 1]);
    bench.taken(&[0, 64, 0], &[2], &[0, 0, 0]);
    bench.turned_away(&[0, 0, 0], &[0], &[2, 2, 2]);
    let bench = Bench::new(&[(1, 1); 64], &[1 << 63, 1 << 63]);
    let mut figures = [0; 64];
    bench.turned_away(&[63, 63], &figures, &[1, 1]);
    figures[63] = 1;
    bench.taken(&[63, 64], &figures, &[0, 0]);
    // 256 plays are not none.
    for whole in [1, 255] {
        let bench = Bench::new(&[(1, whole)], &[1; 256]);
        bench.turned_away(&[0; 256], &[0], &[1; 256]);
    }
    Bench::new(&[(1, 256)], &[1; 256]).taken(&[0; 256], &[0], &[1; 256]);
}

#[test]
fn figures_a_cent_too_small() {
    // In all of these the figures sum to the greatest takings.
    let bench = two_at_5_and_3();
    bench.taken(&[1, 0], &[4, 2], &[1, 1]);
    bench.turned_away(&[1, 0], &[4, 3], &[1, 0]);
    bench.turned_away(&[1, 0], &[5, 2], &[0, 1]);
    bench.turned_away(&[1, 0], &[3, 2], &[2, 1]);
    bench.turned_away(&[1, 0], &[4, 1], &[1, 2]);
    // Reached by the pairs that the allotment uses, not by the first view's
    // with campaign 0.
    bench.taken(&[1, 0], &[2, 0], &[3, 3]);
    bench.turned_away(&[1, 0], &[1, 0], &[3, 4]);
    bench.turned_away(&[1, 0], &[0, 0], &[3, 5]);
    // The last view and the last campaign.
    let mut figures = [0; 64];
    let bench = Bench::new(&[(7, 7); 64], &[u64::MAX; 64]);
    let all: Vec<u64> = (0..64).collect();
    bench.taken(&all, &figures, &[7; 64]);
    let mut short = [7; 64];
    (short[0], short[63]) = (8, 6);
    bench.turned_away(&all, &figures, &short);
    figures = [7; 64];
    bench.taken(&all, &figures, &[0; 64]);
    (figures[0], figures[63]) = (8, 6);
    bench.turned_away(&all, &figures, &[0; 64]);
}

#[test]
fn sums_that_would_wrap() {
    let top = u64::MAX;
    let bench = Bench::new(&[(2, 4), (1, 1 << 30)], &[0b01, 0b01]);
    let give = [0, 0];
    bench.taken(&give, &[2, 0], &[0, 0]);
    bench.taken(&give, &[0, 0], &[2, 2]);
    bench.taken(&give, &[1, 0], &[1, 1]);
    // Modulo 2^64 each of these sums is 4 and each price is reached.
    bench.turned_away(&give, &[2 + (1 << 63), 0], &[0, 0]);
    bench.turned_away(&give, &[0, 0], &[top - 1, 6]);
    bench.turned_away(&give, &[0, 0], &[2 + (1 << 63), 2 + (1 << 63)]);
    bench.turned_away(&give, &[top, 0], &[3, 3]);
    bench.turned_away(&give, &[2, 1 << 34], &[0, 0]);
    bench.turned_away(&give, &[1 << 63, 1 << 63], &[2, 2]);
    bench.turned_away(&give, &[top, 1 << 34], &[3, 3]);
    // Modulo 2^32 too.
    bench.turned_away(&give, &[2 + (1 << 31), 0], &[0, 0]);
    bench.turned_away(&give, &[0, 0], &[(1 << 32) - 2, 6]);
    bench.turned_away(&give, &[2, 4], &[0, 0]);
    // Nothing is given, and modulo 2^64 the figures sum to nothing.
    bench.turned_away(&[64, 64], &[1 << 63, 0], &[0, 0]);
    bench.turned_away(&[64, 64], &[0, 0], &[1 << 63, 1 << 63]);
    // The greatest figures there are.
    bench.turned_away(&give, &[top, 0], &[top, top]);
    bench.turned_away(&[64, 64], &[top, top], &[top, top]);
    let most = Bench::new(&[(1, 2_000_000_000)], &[1; 256]);
    most.turned_away(&[0; 256], &[top], &[top; 256]);
}

/// What is left of an allotment's takings without campaigns that fall short.
fn unstruck(day: &Day, views: &[u64], allotment: &[u64]) -> u64 {
    let fed = |i: u64| {
        let c = &day.campaigns[i as usize];
        let named = views.iter().filter(|&&set| set >> i & 1 == 1).count();
        named as u64 >= day.depth * (c.budget / c.price)
    };
    let kept: Vec<u64> = allotment
        .iter()
        .copied()
        .filter(|&e| e < 64 && fed(e))
        .collect();
    given(day, &kept) as u64
}

/// A random day's views as their sets of unpaused names, and its end.
fn played(random: &mut Random, mut day: Day, length: u64) -> (Day, Vec<u64>) {
    let mut views = Vec::new();
    for _ in 0..length {
        let n = random.below(day.count);
        day = match random.below(8) {
            0 => ok(day.pause(n)),
            1 => ok(day.resume(n)),
            _ => day,
        };
        let names = random.within(0, day.width);
        let set = (0..names).fold(0, |set, _| set | 1 << random.below(day.count));
        views.push(set & !day.paused);
        let (next, answer) = day.view(set);
        assert!(!matches!(answer, Answer::Refused(_)));
        day = next;
    }
    (day, views)
}

#[test]
fn takings_keep_their_floor_against_the_greatest() {
    let mut random = Random(64);
    let mut telling = 0;
    for _ in 0..2_000 {
        let (depth, width, count) = (
            random.within(1, 5),
            random.within(1, 5),
            random.within(1, 12),
        );
        let campaigns = plan(&mut random, count, 50, 6);
        let length = random.within(1, 256);
        let (day, views) = played(&mut random, running(depth, width, &campaigns), length);
        let (best, triple) = found(&day, &views);
        let takings = day.ledger().unwrap().takings;
        assert!(takings <= best);
        let foreseen = unstruck(&day, &views, &triple.allotment);
        let power = width.pow(depth as u32);
        let floor = power - (width - 1).pow(depth as u32);
        assert!(
            power * takings >= floor * foreseen,
            "{campaigns:?} {views:?}"
        );
        telling += u64::from(foreseen > 0);
    }
    assert!(telling > 1_000, "{telling}");
}
