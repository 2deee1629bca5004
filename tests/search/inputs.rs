//! Plans and views, made up: every kind that the search has to take, and the dear ones, which `bench/search` times too.

use crate::random::Random;

pub const MOST_CAMPAIGNS: usize = 64;
pub const MOST_VIEWS: usize = 256;
const MOST_PRICE: u64 = 1_000_000;
const MOST_BUDGET: u64 = 2_000_000_000;

/// Campaigns with their prices and whole plays, and views as sets of unpaused names.
#[derive(Clone, Debug)]
pub struct Input {
    pub prices: Vec<u64>,
    pub plays: Vec<u64>,
    pub views: Vec<u64>,
}

pub type Kind = (&'static str, fn(&mut Random) -> Input);

/// Those that are timed, each of 64 campaigns and 256 views; the last three are dear for a search that serves campaigns
/// in falling price by chains of exchanges.
pub const TIMED: [Kind; 10] = [
    ("dense", dense),
    ("dense, short of views", short_of_views),
    ("16 names", sixteen_names),
    ("4 names", four_names),
    ("nested", nested),
    ("nested upward", nested_upward),
    ("ring of pairs", ring_of_pairs),
    ("chains of 64", chains_of_64),
    ("nested, four plays", nested_four_plays),
    ("dead ends", dead_ends),
];

/// The others that are taken.
pub const UNTIMED: [Kind; 17] = [
    ("any", any),
    ("sparse", sparse),
    ("nested in any order", nested_in_any_order),
    ("disjoint sets", disjoint_sets),
    ("one price", one_price),
    ("equal prices", equal_prices),
    ("prices a cent apart", prices_a_cent_apart),
    ("thousands of plays", thousands_of_plays),
    ("the greatest budget", greatest_budget),
    ("the greatest price", greatest_price),
    ("no views", no_views),
    ("no campaigns", no_campaigns),
    ("no names", no_names),
    ("one campaign", one_campaign),
    ("one view", one_view),
    ("few views", few_views),
    ("256 views", most_views),
];

/// The set of the first n campaigns.
pub fn first(n: usize) -> u64 {
    u64::MAX.checked_shr(64 - n as u32).unwrap_or(0)
}

/// Each of the first n campaigns, `often` times in 16.
fn names(random: &mut Random, n: usize, often: u64) -> u64 {
    (0..n).filter(|_| random.below(16) < often).fold(0, |set, i| set | 1 << i)
}

/// So many of 64 campaigns.
fn names_of(random: &mut Random, size: u32) -> u64 {
    let mut set = 0u64;
    while set.count_ones() < size {
        set |= 1 << random.below(64);
    }
    set
}

/// n campaigns at up to so many cents, with up to so many plays.
fn market(random: &mut Random, n: usize, cents: u64, plays: u64) -> Input {
    Input {
        prices: (0..n).map(|_| 1 + random.below(cents)).collect(),
        plays: (0..n).map(|_| 1 + random.below(plays)).collect(),
        views: vec![],
    }
}

/// 64 campaigns, and 256 views.
fn full(random: &mut Random, plays: u64, view: impl Fn(&mut Random, usize) -> u64) -> Input {
    let mut input = market(random, MOST_CAMPAIGNS, 1_000, plays);
    input.views = (0..MOST_VIEWS).map(|j| view(random, j)).collect();
    input
}

fn dense(random: &mut Random) -> Input {
    full(random, 7, |random, _| random.next() | random.next())
}

fn short_of_views(random: &mut Random) -> Input {
    full(random, 12, |random, _| random.next() | random.next())
}

fn sixteen_names(random: &mut Random) -> Input {
    full(random, 7, |random, _| names_of(random, 16))
}

fn four_names(random: &mut Random) -> Input {
    full(random, 7, |random, _| names_of(random, 4))
}

fn sparse(random: &mut Random) -> Input {
    full(random, 5, |random, _| random.set(64, 2) & random.next())
}

fn ring_of_pairs(random: &mut Random) -> Input {
    full(random, 7, |random, _| 3u64.rotate_left(random.below(64) as u32))
}

/// Each set within the one before or behind it, and campaigns in falling price.
fn fallen(plays: u64, view: fn(usize) -> u64) -> Input {
    Input {
        prices: (0..64).map(|i| (64 - i) * 10).collect(),
        plays: vec![plays; MOST_CAMPAIGNS],
        views: (0..MOST_VIEWS).map(view).collect(),
    }
}

fn nested(_: &mut Random) -> Input {
    fallen(5, |j| u64::MAX >> (j / 4))
}

fn nested_upward(_: &mut Random) -> Input {
    fallen(5, |j| u64::MAX << (j / 4))
}

/// As many plays as views, so that the dearer have to give way until the last.
fn nested_four_plays(_: &mut Random) -> Input {
    fallen(4, |j| u64::MAX >> (j / 4))
}

/// Four views for each link of `chain`.
fn chains_of_64(_: &mut Random) -> Input {
    let links = chain(MOST_CAMPAIGNS, false);
    let views = links.views.iter().flat_map(|&set| [set; 4]).collect();
    Input { plays: vec![4; MOST_CAMPAIGNS], views, ..links }
}

/// Every play of the last campaign is sought among all the views that 62 others hold, none of which has another, before
/// one is found that campaign 62 holds, which has. A view without names stays free, so that every look for a free one
/// starts at the first. Each of those 96 searches visits every campaign.
fn dead_ends(random: &mut Random) -> Input {
    let mut views = vec![0; 2];
    views.extend((0..62).map(|i| names(random, 62, 8) | 1 << i | 1 << 63));
    views.extend([3 << 62; 96]);
    views.extend([1 << 62; 96]);
    Input { prices: (0..64).map(|i| 1_000 - i).collect(), plays: [vec![1; 62], vec![96; 2]].concat(), views }
}

/// n campaigns of one play in falling price, and as many views. All can play in one way alone: campaign i + 1 on the
/// view that names i too, and campaign 0 on the view that names no other. That view comes last, or first.
pub fn chain(n: usize, alone_first: bool) -> Input {
    let mut views: Vec<u64> = (1..n).map(|i| 3 << (i - 1)).collect();
    views.insert(if alone_first { 0 } else { n - 1 }, 1);
    Input { prices: (0..n as u64).map(|i| (n as u64 - i) * 10).collect(), plays: vec![1; n], views }
}

/// As far as the limits go, in any mixture.
fn any(random: &mut Random) -> Input {
    let n = random.pick(&[1, 2, 3, 7, 20, 40, 63, 64]);
    let (m, often) = (random.below(257), 1 + random.below(15));
    let share = MOST_BUDGET / n as u64;
    let prices: Vec<u64> = (0..n).map(|_| random.spread(1, share.min(MOST_PRICE))).collect();
    let plays = prices.iter().map(|price| random.spread(1, (share / price).min(1 + m))).collect();
    Input { prices, plays, views: (0..m).map(|_| names(random, n, often)).collect() }
}

fn nested_in_any_order(random: &mut Random) -> Input {
    let mut input = market(random, MOST_CAMPAIGNS, 100, 6);
    let turn = random.below(64) as u32;
    input.views = (0..200).map(|_| (u64::MAX >> random.below(64)).rotate_left(turn)).collect();
    input
}

fn disjoint_sets(random: &mut Random) -> Input {
    full(random, 7, |random, _| 0xff << (8 * random.below(8)))
}

fn one_price(random: &mut Random) -> Input {
    let mut input = full(random, 6, |random, _| random.set(64, 5));
    input.prices.fill(1 + random.below(1_000));
    input
}

/// Three prices for 64 campaigns.
fn equal_prices(random: &mut Random) -> Input {
    let mut input = full(random, 6, |random, _| random.set(64, 5));
    input.prices.iter_mut().for_each(|price| *price = 7 * (1 + random.below(3)));
    input
}

fn prices_a_cent_apart(random: &mut Random) -> Input {
    let mut input = full(random, 6, |random, _| random.set(64, 5));
    let turn = random.below(64);
    input.prices = (0..64).map(|i| 1_000 + (i + turn) % 64).collect();
    input
}

fn thousands_of_plays(random: &mut Random) -> Input {
    let n = random.pick(&[1, 5, 64]);
    let share = MOST_BUDGET / n as u64;
    let mut input = market(random, n, share.min(MOST_PRICE) / 1_000, 1);
    input.plays = input.prices.iter().map(|price| random.spread(1_000, share / price)).collect();
    input.views = (0..random.below(257)).map(|_| names(random, n, 6)).collect();
    input
}

/// 2,000,000,000 plays at a cent.
fn greatest_budget(random: &mut Random) -> Input {
    let views = (0..random.below(257)).map(|_| names(random, 1, 12)).collect();
    Input { prices: vec![1], plays: vec![MOST_BUDGET], views }
}

fn greatest_price(random: &mut Random) -> Input {
    let views = (0..MOST_VIEWS).map(|_| names(random, 40, 3)).collect();
    Input { prices: vec![MOST_PRICE; 40], plays: vec![50; 40], views }
}

fn no_views(random: &mut Random) -> Input {
    let n = random.pick(&[0, 1, 2, 63, 64]);
    market(random, n, 1_000, 50)
}

fn no_campaigns(random: &mut Random) -> Input {
    Input { prices: vec![], plays: vec![], views: vec![0; random.pick(&[0, 1, 2, 255, 256])] }
}

fn no_names(random: &mut Random) -> Input {
    let n = random.pick(&[1, 2, 63, 64]);
    Input { views: vec![0; random.pick(&[1, 2, 255, 256])], ..market(random, n, 1_000, 50) }
}

fn one_campaign(random: &mut Random) -> Input {
    let mut input = market(random, 1, 1_000, 300);
    input.views = (0..random.below(257)).map(|_| random.below(2)).collect();
    input
}

fn one_view(random: &mut Random) -> Input {
    let n = random.pick(&[1, 2, 63, 64]);
    Input { views: vec![random.next() & first(n)], ..market(random, n, 1_000, 3) }
}

fn few_views(random: &mut Random) -> Input {
    let mut input = market(random, MOST_CAMPAIGNS, 1_000, 3);
    input.views = (0..20).map(|_| random.next()).collect();
    input
}

fn most_views(random: &mut Random) -> Input {
    let n = random.pick(&[2, 30, 64]);
    let mut input = market(random, n, 1_000, 300 / n as u64);
    input.views = (0..MOST_VIEWS).map(|_| names(random, n, 7)).collect();
    input
}

/// So small that every allotment can be tried.
pub fn small(random: &mut Random) -> Input {
    let n = random.below(6) as usize;
    let cents = random.pick(&[1, 2, 6, 1_000]);
    let mut input = market(random, n, cents, 3);
    input.views = (0..random.below(8)).map(|_| random.next() & first(n)).collect();
    input
}
