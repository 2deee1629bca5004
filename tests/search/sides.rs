//! The two sides of the comparison, the product and the second program, on one state with views.

use crate::library::Lent;
use crate::model;
use crate::product;
use second::day::Day;
use second::greatest;

/// An allotment with the figures of the campaigns and of the views, in lent entries.
#[derive(Clone, PartialEq, Debug)]
pub struct Triple {
    pub allotment: Vec<u64>,
    pub surplus: Vec<u64>,
    pub worth: Vec<u64>,
}

#[derive(Clone, Copy, PartialEq, Debug)]
pub enum Side {
    Product,
    Second,
}

pub const SIDES: [Side; 2] = [Side::Product, Side::Second];

/// A state with views, for both.
#[derive(Debug)]
pub struct Case {
    pub day: Day,
    pub views: Vec<u64>,
    lent: Lent,
}

impl Case {
    /// None where the library's arrays cannot hold the state.
    pub fn new(day: Day, views: Vec<u64>) -> Option<Case> {
        let lent = model::lent(&day)?;
        Some(Case { day, views, lent })
    }

    /// The number of campaigns, at most 64 in a state that is not sound too.
    pub fn campaigns(&self) -> usize {
        self.day.count.min(64) as usize
    }

    /// The takings of what was found, or the status of a refusal.
    pub fn search(&self, side: Side, triple: &mut Triple) -> Result<u128, u64> {
        match side {
            Side::Product => match product::search(&self.lent, &self.views, triple) {
                product::STATUS_ACCEPTED => Ok(self.takings(triple)),
                status => Err(status),
            },
            Side::Second => {
                let Triple { allotment, surplus, worth } = triple;
                greatest::greatest(&self.day, &self.views, allotment, surplus, worth).map(u128::from)
            }
        }
    }

    /// The status of the check.
    pub fn check(&self, side: Side, triple: &Triple) -> u64 {
        match side {
            Side::Product => product::check(&self.lent, &self.views, triple),
            Side::Second => {
                let Triple { allotment, surplus, worth } = triple;
                match greatest::accepts(&self.day, &self.views, allotment, surplus, worth) {
                    Ok(true) => product::STATUS_ACCEPTED,
                    Ok(false) => product::STATUS_NO_FIT,
                    Err(question) => question,
                }
            }
        }
    }

    /// What the product's allotment takes: the library does not hand it back.
    fn takings(&self, triple: &Triple) -> u128 {
        let given = triple.allotment[..self.views.len()].iter().filter(|&&entry| entry != greatest::NOBODY);
        given.map(|&entry| self.price(entry)).sum()
    }

    /// An entry that is no campaign has no price: the checks speak of it.
    pub fn price(&self, entry: u64) -> u128 {
        self.day.campaigns.get(entry as usize).map_or(0, |c| u128::from(c.price))
    }

    pub fn names(&self, view: usize, campaign: u64) -> bool {
        campaign < 64 && self.views[view] >> campaign & 1 == 1
    }

    /// The plays that a campaign's budget buys.
    pub fn whole(&self, campaign: usize) -> u64 {
        self.day.campaigns[campaign].budget / self.day.campaigns[campaign].price
    }
}

impl Triple {
    /// Entries before a search: any values will do, and distinct ones show which was written.
    pub fn lent(lengths: [usize; 3], fill: impl Fn(u64) -> u64) -> Triple {
        let [allotment, surplus, worth] = lengths.map(|n| (0..n as u64).map(&fill).collect());
        Triple { allotment, surplus, worth }
    }

    /// The entries beyond the views and the campaigns.
    pub fn beyond(&self, case: &Case) -> [&[u64]; 3] {
        let (m, n) = (case.views.len(), case.campaigns());
        [&self.allotment[m..], &self.surplus[n..], &self.worth[m..]]
    }
}
