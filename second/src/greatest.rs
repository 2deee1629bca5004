//! What a day could have earned: an allotment of known views with the greatest
//! takings, and cents figures which show that no allotment takes more.
//!
//! The search is a minimum-cost flow by least-loss chains. The views are placed
//! one after another in their order, each along the chain of moves that loses
//! least; campaigns are not served in any order of their own. Nobody stands
//! beside the campaigns as one more place, with price 0 and room for every
//! view. Between two placings these hold:
//!
//! - a view's figure and the figure of a place open to it sum to at least the
//!   place's price, and to exactly that for the place that holds the view;
//! - a place with room left has figure 0, so nobody always has.
//!
//! At the end the figures, each campaign's taken as often as it has whole
//! plays, therefore sum to the takings.
//!
//! ```
//! use second::greatest::{accepts, greatest, NOBODY};
//! use second::Day;
//!
//! // One play at 5 and one at 3; only the first view names both.
//! let (day, _) = Day::blank().open(1, 2);
//! let (day, _) = day.add(5, 5);
//! let (day, _) = day.add(3, 3);
//! let views = [0b11, 0b01, 0b00];
//! let (mut allotment, mut of_campaigns, mut of_views) = ([0; 3], [0; 2], [0; 3]);
//! let found = greatest(&day, &views, &mut allotment, &mut of_campaigns, &mut of_views);
//! assert_eq!(found, Ok(8));
//! assert_eq!(allotment, [1, 0, NOBODY]);
//! assert_eq!(accepts(&day, &views, &allotment, &of_campaigns, &of_views), Ok(true));
//! // What takes less is not accepted.
//! assert_eq!(accepts(&day, &views, &[0, 64, 64], &of_campaigns, &of_views), Ok(false));
//! ```

use crate::day::{ask, members, Day, MAX_CAMPAIGNS};
use crate::refusal;

/// The most views handed in at a time.
pub const MAX_KNOWN_VIEWS: usize = 256;
/// The entry of a view that is given to nobody.
pub const NOBODY: u64 = MAX_CAMPAIGNS;

/// The number of places a view can be given to.
const PLACES: usize = NOBODY as usize + 1;
/// The loss of a place not reached yet.
const UNREACHED: u64 = u64::MAX;

/// Finds an allotment of the views with the greatest takings, and gives these.
///
/// Each view is its set of unpaused names; the phase, counts and marks of the
/// state do not matter. The front of the lent entries receives the campaign's
/// number or [`NOBODY`] for each view, a figure for each campaign and a figure
/// for each view. Entries beyond keep their values.
///
/// A refusal leaves all entries as they were and gives the number of the first
/// question that fails: 1 if the state is not sound, 19 if there are more than
/// [`MAX_KNOWN_VIEWS`] views, 13 if one names a campaign outside the plan, and
/// 18 if fewer entries are lent than there are views or campaigns.
pub fn greatest(
    day: &Day,
    views: &[u64],
    allotment: &mut [u64],
    campaign_figures: &mut [u64],
    view_figures: &mut [u64],
) -> Result<u64, u64> {
    let lent = [allotment.len(), campaign_figures.len(), view_figures.len()];
    questions(day, views, lent)?;
    let mut search = Search::new(day, views);
    (0..views.len()).for_each(|view| search.place(view));
    for (entry, holder) in allotment.iter_mut().zip(&search.holders) {
        *entry = *holder as u64;
    }
    let count = day.count as usize;
    campaign_figures[..count].copy_from_slice(&search.figures[..count]);
    view_figures[..views.len()].copy_from_slice(&search.view_figures);
    Ok(search.takings())
}

/// Whether an allotment and two lists of figures are such as [`greatest`] may
/// give: an allotment of the views, figures that sum to at least the price
/// wherever a view names a campaign, and together, each campaign's × its whole
/// plays, to the allotment's takings. No allotment then takes more. Entries past
/// the last are not looked at. The same questions are asked in the same order.
pub fn accepts(
    day: &Day,
    views: &[u64],
    allotment: &[u64],
    campaign_figures: &[u64],
    view_figures: &[u64],
) -> Result<bool, u64> {
    let lent = [allotment.len(), campaign_figures.len(), view_figures.len()];
    questions(day, views, lent)?;
    let allotment = &allotment[..views.len()];
    let campaign_figures = &campaign_figures[..day.count as usize];
    let view_figures = &view_figures[..views.len()];
    Ok(is_allotment(day, views, allotment)
        && covers_prices(day, views, campaign_figures, view_figures)
        && worth(day, campaign_figures, view_figures) == takings(day, allotment))
}

/// Questions 1, 19, 13 and 18; the lent lengths are those of the allotment, the
/// campaign figures and the view figures.
fn questions(day: &Day, views: &[u64], lent: [usize; 3]) -> Result<(), u64> {
    ask(day.is_sound(), refusal::UNSOUND)?;
    ask(views.len() <= MAX_KNOWN_VIEWS, refusal::MANY_VIEWS)?;
    let known = views.iter().all(|&set| day.beyond(set) == 0);
    ask(known, refusal::NAME_UNKNOWN)?;
    let needed = [views.len(), day.count as usize, views.len()];
    let enough = lent
        .iter()
        .zip(needed)
        .all(|(&lent, needed)| lent >= needed);
    ask(enough, refusal::SHORT_BUFFER)
}

/// Whether each view goes to nobody or to a campaign that it names, and no
/// campaign gets more than its whole plays.
fn is_allotment(day: &Day, views: &[u64], allotment: &[u64]) -> bool {
    let mut given = [0; NOBODY as usize];
    for (&set, &entry) in views.iter().zip(allotment) {
        if entry == NOBODY {
            continue;
        }
        if entry > NOBODY || set >> entry & 1 == 0 {
            return false;
        }
        given[entry as usize] += 1;
    }
    let planned = day.planned().iter();
    planned
        .zip(given)
        .all(|(c, given)| given <= c.whole_plays())
}

/// Whether the two figures reach the price wherever a view names a campaign.
fn covers_prices(day: &Day, views: &[u64], campaign_figures: &[u64], view_figures: &[u64]) -> bool {
    let mut names = views
        .iter()
        .zip(view_figures)
        .flat_map(|(&set, &figure)| members(set).map(move |i| (i, figure)));
    names.all(|(i, figure)| {
        let sum = u128::from(campaign_figures[i]) + u128::from(figure);
        sum >= u128::from(day.campaigns[i].price)
    })
}

/// The campaign figures × whole plays and the view figures, summed. Each is
/// below 2^64, whole plays are below 2^31, and there are few.
fn worth(day: &Day, campaign_figures: &[u64], view_figures: &[u64]) -> u128 {
    let planned = day.planned().iter().zip(campaign_figures);
    let campaigns: u128 = planned
        .map(|(c, &figure)| u128::from(c.whole_plays()) * u128::from(figure))
        .sum();
    let views: u128 = view_figures.iter().map(|&figure| u128::from(figure)).sum();
    campaigns + views
}

/// The prices given by an allotment.
fn takings(day: &Day, allotment: &[u64]) -> u128 {
    let given = allotment.iter().filter(|&&entry| entry != NOBODY);
    given
        .map(|&entry| u128::from(day.campaigns[entry as usize].price))
        .sum()
}

/// A search under way. No figure is above the greatest price, as each place
/// whose figure is above 0 holds a view.
struct Search<'a> {
    views: &'a [u64],
    prices: [u64; PLACES],
    /// How many more views each place can hold.
    room: [u64; PLACES],
    figures: [u64; PLACES],
    /// The figures of the views placed so far.
    view_figures: Vec<u64>,
    /// The places that hold them.
    holders: Vec<usize>,
}

/// What the search for one view's chain has reached.
struct Reach {
    /// The least loss with which each place is reached.
    loss: [u64; PLACES],
    /// The view that would move to the place.
    mover: [usize; PLACES],
    /// The places whose loss is final.
    settled: [bool; PLACES],
}

impl<'a> Search<'a> {
    fn new(day: &Day, views: &'a [u64]) -> Search<'a> {
        let mut search = Search {
            views,
            prices: [0; PLACES],
            room: [0; PLACES],
            figures: [0; PLACES],
            view_figures: Vec::with_capacity(views.len()),
            holders: Vec::with_capacity(views.len()),
        };
        for (i, campaign) in day.planned().iter().enumerate() {
            search.prices[i] = campaign.price;
            search.room[i] = campaign.whole_plays();
        }
        search.room[NOBODY as usize] = views.len() as u64;
        search
    }

    fn takings(&self) -> u64 {
        self.holders.iter().map(|&place| self.prices[place]).sum()
    }

    /// The places open to a view.
    fn open_to(&self, view: usize) -> impl Iterator<Item = usize> {
        members(self.views[view]).chain([NOBODY as usize])
    }

    /// Places the next view: finds the chain that loses least, changes the
    /// figures so that the chain loses nothing, then moves the views along it.
    fn place(&mut self, view: usize) {
        let offers = self
            .open_to(view)
            .map(|place| self.prices[place].saturating_sub(self.figures[place]));
        let figure = offers.max().unwrap_or(0);
        self.view_figures.push(figure);
        let (end, reach) = self.reach(view);
        self.change_figures(view, reach.loss[end], &reach);
        self.move_along(view, end, &reach);
    }

    /// Goes from the view to ever greater losses until a place with room.
    /// Nobody has room, so there is one.
    fn reach(&self, view: usize) -> (usize, Reach) {
        let mut reach = Reach {
            loss: [UNREACHED; PLACES],
            mover: [view; PLACES],
            settled: [false; PLACES],
        };
        self.extend(&mut reach, view, 0);
        loop {
            let place = reach.nearest();
            if self.room[place] > 0 {
                return (place, reach);
            }
            reach.settled[place] = true;
            let loss = reach.loss[place];
            let held = (0..view).filter(|&other| self.holders[other] == place);
            held.for_each(|other| self.extend(&mut reach, other, loss));
        }
    }

    /// Reaches the places open to a view that is itself reached with a loss.
    fn extend(&self, reach: &mut Reach, view: usize, loss: u64) {
        for place in self.open_to(view) {
            let excess = self.figures[place] + self.view_figures[view] - self.prices[place];
            if loss + excess < reach.loss[place] {
                reach.loss[place] = loss + excess;
                reach.mover[place] = view;
            }
        }
    }

    /// Raises the figures of the settled places up to the loss at the end, and
    /// lowers those of the views they hold by as much, and the new view's by
    /// all of it. No view's figure falls below 0, as nobody is open to it.
    fn change_figures(&mut self, view: usize, end: u64, reach: &Reach) {
        for (other, &holder) in self.holders.iter().enumerate() {
            if reach.settled[holder] {
                self.view_figures[other] -= end - reach.loss[holder];
            }
        }
        self.view_figures[view] -= end;
        for place in (0..PLACES).filter(|&place| reach.settled[place]) {
            self.figures[place] += end - reach.loss[place];
        }
    }

    /// Moves each view of the chain, from its end back to the new view.
    fn move_along(&mut self, view: usize, end: usize, reach: &Reach) {
        self.room[end] -= 1;
        let mut place = end;
        while reach.mover[place] != view {
            let mover = reach.mover[place];
            place = std::mem::replace(&mut self.holders[mover], place);
        }
        self.holders.push(place);
    }
}

impl Reach {
    /// The unsettled place with the least loss, the lowest among equals.
    fn nearest(&self) -> usize {
        let unsettled = (0..PLACES).filter(|&place| !self.settled[place]);
        unsettled
            .min_by_key(|&place| self.loss[place])
            .unwrap_or(NOBODY as usize)
    }
}
