//! The state of one day, its soundness, and the operations on it.
//!
//! Each public operation takes a state by value and hands back a state with an
//! answer. A refused operation hands back the state it was given.

use crate::refusal;

/// The greatest depth of a plan.
pub const MAX_DEPTH: u64 = 32;
/// The greatest width of a plan.
pub const MAX_WIDTH: u64 = 16;
/// The greatest value of width to the power depth.
pub const MAX_POWER: u64 = 1 << 32;
/// The most campaigns in a plan.
pub const MAX_CAMPAIGNS: u64 = 64;
/// The greatest price of one play, in cents.
pub const MAX_PRICE: u64 = 1_000_000;
/// The greatest budget, and the greatest sum of budgets, in cents.
pub const MAX_BUDGET: u64 = 2_000_000_000;
/// The most accepted views in a day.
pub const MAX_VIEWS: u64 = 4_096;

/// Number of entries in a state, filled or not.
const ENTRIES: usize = MAX_CAMPAIGNS as usize;
const ROWS: usize = MAX_WIDTH as usize;
const COLUMNS: usize = MAX_DEPTH as usize + 1;

/// `POWERS[b - 1][e]` is b to the power e, or 0 where that is above [`MAX_POWER`].
static POWERS: [[u64; COLUMNS]; ROWS] = powers();

const fn powers() -> [[u64; COLUMNS]; ROWS] {
    let mut table = [[0; COLUMNS]; ROWS];
    let mut row = 0;
    while row < ROWS {
        let base = row as u64 + 1;
        let mut value = 1;
        let mut column = 0;
        while column < COLUMNS && value <= MAX_POWER {
            table[row][column] = value;
            value *= base;
            column += 1;
        }
        row += 1;
    }
    table
}

/// `base` to the power `exponent` from the table; 0 to the power 0 is 1.
/// The base is at most [`MAX_WIDTH`] and the exponent at most [`MAX_DEPTH`].
fn power(base: u64, exponent: u64) -> u64 {
    match base {
        0 => u64::from(exponent == 0),
        _ => POWERS[base as usize - 1][exponent as usize],
    }
}

/// Where the day stands.
#[derive(Clone, Copy, Debug, PartialEq, Eq)]
pub enum Phase {
    /// Campaigns are being added.
    Filling,
    /// Views are being answered.
    Running,
    /// The day is over; its final takings are held.
    Closed(u64),
}

/// One entry of the plan with its counts.
#[derive(Clone, Copy, Debug, Default, PartialEq, Eq)]
pub struct Campaign {
    /// Cents for one play.
    pub price: u64,
    /// Cents for the day.
    pub budget: u64,
    /// Plays won.
    pub plays: u64,
    /// Finished turns.
    pub turns: u64,
    /// Views that named it while it could pay, since its last finished turn.
    pub age: u64,
    /// Accepted views that named it while it was not paused.
    pub named: u64,
}

impl Campaign {
    const ZERO: Campaign = Campaign {
        price: 0,
        budget: 0,
        plays: 0,
        turns: 0,
        age: 0,
        named: 0,
    };

    /// The plays that the budget buys. Asked of sound entries only.
    pub(crate) fn whole_plays(&self) -> u64 {
        self.budget / self.price
    }

    /// Whether the budget buys one more play. Asked of sound entries only:
    /// plays < budget / price rounded down, said without the division.
    fn can_pay(&self) -> bool {
        (self.plays + 1) * self.price <= self.budget
    }

    /// Whether price, budget and counts lie in their ranges. The views are at
    /// most [`MAX_VIEWS`]. Last, plays ≤ whole plays, said without the division;
    /// plays and price are known to be small by then.
    fn is_sound(&self, depth: u64, views: u64) -> bool {
        check_money(self.price, self.budget).is_ok()
            && self.age < depth
            && self.plays <= self.turns
            && self.turns <= self.named
            && self.named <= views
            && self.plays * self.price <= self.budget
    }

    /// Whether every field is zero.
    fn is_zero(&self) -> bool {
        self.price | self.budget | self.plays | self.turns | self.age | self.named == 0
    }
}

/// What an operation answers.
#[derive(Clone, Copy, Debug, PartialEq, Eq)]
pub enum Answer {
    /// The number of the first question that failed.
    Refused(u64),
    /// A plan, a campaign, a start, a pause or a resume was accepted.
    Ok,
    /// A view was won by this campaign, which paid its price.
    Play {
        /// The player.
        campaign: u64,
        /// The price of this one play.
        paid: u64,
    },
    /// A view was accepted and no named campaign could pay, or none was named
    /// but paused ones.
    Nobody,
    /// The counts of one campaign.
    Tally {
        /// Its number.
        campaign: u64,
        /// Plays won.
        plays: u64,
        /// Finished turns.
        turns: u64,
        /// Age of the current turn.
        age: u64,
        /// Accepted views that named it while it was not paused.
        named: u64,
    },
    /// The day was closed.
    Closed {
        /// Sum of price × plays.
        takings: u64,
        /// The total claim.
        claim: u64,
        /// Width to the power depth, times the takings.
        full: u64,
    },
}

/// The day's money: takings, total claim and full.
#[derive(Clone, Copy, Debug, PartialEq, Eq)]
pub struct Ledger {
    /// Sum of price × plays.
    pub takings: u64,
    /// The total claim.
    pub claim: u64,
    /// Width to the power depth, times the takings.
    pub full: u64,
}

/// The state of one day. Any field may hold any number; see [`Day::is_sound`].
#[derive(Clone, Debug, PartialEq, Eq)]
pub struct Day {
    /// Where the day stands.
    pub phase: Phase,
    /// The paper's k.
    pub depth: u64,
    /// The paper's d.
    pub width: u64,
    /// Number of campaigns in the plan.
    pub count: u64,
    /// Number of accepted views.
    pub views: u64,
    /// The paused marks, bit i for campaign i.
    pub paused: u64,
    /// The campaigns, then entries of zeros.
    pub campaigns: [Campaign; ENTRIES],
}

/// The outcome of the questions after the first: an answer or a refusal number.
pub(crate) type Outcome = Result<Answer, u64>;

/// `Ok` if the question is answered "yes", else its number.
pub(crate) fn ask(yes: bool, number: u64) -> Result<(), u64> {
    if yes {
        Ok(())
    } else {
        Err(number)
    }
}

/// Questions 3, 4 and 5.
fn check_plan(depth: u64, width: u64) -> Result<(), u64> {
    ask((1..=MAX_DEPTH).contains(&depth), refusal::DEPTH)?;
    ask((1..=MAX_WIDTH).contains(&width), refusal::WIDTH)?;
    ask(power(width, depth) != 0, refusal::POWER)
}

/// Questions 8 and 9.
fn check_money(price: u64, budget: u64) -> Result<(), u64> {
    ask((1..=MAX_PRICE).contains(&price), refusal::PRICE)?;
    ask((price..=MAX_BUDGET).contains(&budget), refusal::BUDGET)
}

/// The campaigns of a view, rising.
pub(crate) fn members(mut set: u64) -> impl Iterator<Item = usize> {
    std::iter::from_fn(move || {
        if set == 0 {
            return None;
        }
        let lowest = set.trailing_zeros() as usize;
        set &= set - 1;
        Some(lowest)
    })
}

impl Day {
    /// Closed, depth 1, width 1, no campaigns, no views, no takings.
    pub fn blank() -> Day {
        Day::with_plan(Phase::Closed(0), 1, 1)
    }

    fn with_plan(phase: Phase, depth: u64, width: u64) -> Day {
        Day {
            phase,
            depth,
            width,
            count: 0,
            views: 0,
            paused: 0,
            campaigns: [Campaign::ZERO; ENTRIES],
        }
    }

    /// Opens a plan.
    pub fn open(self, depth: u64, width: u64) -> (Day, Answer) {
        self.asked(|day| day.try_open(depth, width))
    }

    /// Adds a campaign.
    pub fn add(self, price: u64, budget: u64) -> (Day, Answer) {
        self.asked(|day| day.try_add(price, budget))
    }

    /// Starts the day.
    pub fn start(self) -> (Day, Answer) {
        self.asked(Day::try_start)
    }

    /// Answers a view; bit i of the set stands for campaign i.
    pub fn view(self, set: u64) -> (Day, Answer) {
        self.asked(|day| day.try_view(set))
    }

    /// Pauses campaign `n`: views that name it are answered and counted as if
    /// they did not. It may be paused already.
    pub fn pause(self, n: u64) -> (Day, Answer) {
        self.asked(|day| day.try_pause(n))
    }

    /// Ends the pause of campaign `n`, if it is paused.
    pub fn resume(self, n: u64) -> (Day, Answer) {
        self.asked(|day| day.try_resume(n))
    }

    /// Gives the counts of campaign `n`, in any phase.
    pub fn tally(self, n: u64) -> (Day, Answer) {
        self.asked(|day| day.try_tally(n))
    }

    /// Closes the day. Plan, counts and marks stay as they are, so that tallies
    /// can still be asked.
    pub fn close(self) -> (Day, Answer) {
        self.asked(Day::try_close)
    }

    /// Question 1, then the operation with its own questions.
    fn asked(mut self, operation: impl FnOnce(&mut Day) -> Outcome) -> (Day, Answer) {
        let answer = if self.is_sound() {
            operation(&mut self).unwrap_or_else(Answer::Refused)
        } else {
            Answer::Refused(refusal::UNSOUND)
        };
        (self, answer)
    }

    /// Whether the state is sound; decided exactly for any numbers.
    pub fn is_sound(&self) -> bool {
        check_plan(self.depth, self.width).is_ok()
            && self.count <= MAX_CAMPAIGNS
            && self.views <= MAX_VIEWS
            && self.beyond(self.paused) == 0
            && self.entries_are_sound()
            && self.phase_is_sound()
            && self.total_claim() <= u128::from(self.full())
    }

    /// Takings, total claim and full of a sound state.
    pub fn ledger(&self) -> Option<Ledger> {
        self.is_sound().then(|| self.settled())
    }

    /// The campaigns of the plan. The count is at most [`MAX_CAMPAIGNS`].
    pub(crate) fn planned(&self) -> &[Campaign] {
        &self.campaigns[..self.count as usize]
    }

    /// The marks of a set past the last campaign, moved down to bit 0. The count
    /// is at most [`MAX_CAMPAIGNS`].
    pub(crate) fn beyond(&self, set: u64) -> u64 {
        set.checked_shr(self.count as u32).unwrap_or(0)
    }

    fn entries_are_sound(&self) -> bool {
        let (planned, rest) = self.campaigns.split_at(self.count as usize);
        planned.iter().all(|c| c.is_sound(self.depth, self.views))
            && self.budget_sum() <= MAX_BUDGET
            && rest.iter().fold(true, |zero, c| zero & c.is_zero())
    }

    /// The phase's own rule, asked when the entries are sound. Age is taken to
    /// be one of the counts that are zero in Filling; plays, turns and named
    /// are zero there because no view is accepted. No mark is set there either.
    fn phase_is_sound(&self) -> bool {
        match self.phase {
            Phase::Filling => self.is_untouched(),
            Phase::Running => true,
            Phase::Closed(takings) => takings == self.takings(),
        }
    }

    /// No accepted view, no paused mark and no age.
    fn is_untouched(&self) -> bool {
        self.views == 0 && self.paused == 0 && self.planned().iter().all(|c| c.age == 0)
    }

    /// Sum of budgets, asked when each is at most [`MAX_BUDGET`].
    fn budget_sum(&self) -> u64 {
        self.planned().iter().map(|c| c.budget).sum()
    }

    /// Sum of price × plays, asked when the entries are sound: it is at most
    /// the sum of budgets.
    fn takings(&self) -> u64 {
        self.planned().iter().map(|c| c.price * c.plays).sum()
    }

    /// Width to the power depth, times the takings: at most 2^32 × 2,000,000,000.
    fn full(&self) -> u64 {
        power(self.width, self.depth) * self.takings()
    }

    /// W(age) = d^age × (d − 1)^(k − age), at most d^k.
    fn weight(&self, age: u64) -> u64 {
        power(self.width, age) * power(self.width - 1, self.depth - age)
    }

    /// The sum of price × (turns × (d^k − (d − 1)^k) + W(age) − W(0)). Sound
    /// entries alone may claim more than 64 bits hold.
    fn total_claim(&self) -> u128 {
        let start = self.weight(0);
        let turn = power(self.width, self.depth) - start;
        let claim = |c: &Campaign| {
            let share = c.turns * turn + self.weight(c.age) - start;
            u128::from(c.price) * u128::from(share)
        };
        self.planned().iter().map(claim).sum()
    }

    /// The money of a state known to be sound, whose claim is at most full.
    fn settled(&self) -> Ledger {
        Ledger {
            takings: self.takings(),
            claim: self.total_claim() as u64,
            full: self.full(),
        }
    }
}

/// The operations on a state known to be sound. Each leaves a sound state: a
/// play adds price × d^k to full and at most as much to the total claim, and a
/// turn never outruns the naming that ends it.
impl Day {
    pub(crate) fn try_open(&mut self, depth: u64, width: u64) -> Outcome {
        let closed = matches!(self.phase, Phase::Closed(_));
        ask(closed, refusal::NOT_CLOSED)?;
        check_plan(depth, width)?;
        *self = Day::with_plan(Phase::Filling, depth, width);
        Ok(Answer::Ok)
    }

    pub(crate) fn try_add(&mut self, price: u64, budget: u64) -> Outcome {
        ask(self.phase == Phase::Filling, refusal::NOT_FILLING)?;
        ask(self.count < MAX_CAMPAIGNS, refusal::PLAN_FULL)?;
        check_money(price, budget)?;
        let sum = self.budget_sum() + budget;
        ask(sum <= MAX_BUDGET, refusal::BUDGET_SUM)?;
        self.campaigns[self.count as usize] = Campaign {
            price,
            budget,
            ..Campaign::ZERO
        };
        self.count += 1;
        Ok(Answer::Ok)
    }

    pub(crate) fn try_start(&mut self) -> Outcome {
        ask(self.phase == Phase::Filling, refusal::NOT_FILLING)?;
        self.phase = Phase::Running;
        Ok(Answer::Ok)
    }

    pub(crate) fn try_view(&mut self, set: u64) -> Outcome {
        self.check_view(set)?;
        let names = set & !self.paused;
        let player = self.player(names);
        self.record_view(names, player);
        Ok(match player {
            Some(i) => Answer::Play {
                campaign: i as u64,
                paid: self.campaigns[i].price,
            },
            None => Answer::Nobody,
        })
    }

    pub(crate) fn try_pause(&mut self, n: u64) -> Outcome {
        self.paused |= self.mark(n)?;
        Ok(Answer::Ok)
    }

    pub(crate) fn try_resume(&mut self, n: u64) -> Outcome {
        self.paused &= !self.mark(n)?;
        Ok(Answer::Ok)
    }

    pub(crate) fn try_tally(&mut self, n: u64) -> Outcome {
        ask(n < self.count, refusal::NO_CAMPAIGN)?;
        let c = &self.campaigns[n as usize];
        Ok(Answer::Tally {
            campaign: n,
            plays: c.plays,
            turns: c.turns,
            age: c.age,
            named: c.named,
        })
    }

    pub(crate) fn try_close(&mut self) -> Outcome {
        ask(self.phase == Phase::Running, refusal::NOT_RUNNING)?;
        let Ledger {
            takings,
            claim,
            full,
        } = self.settled();
        self.phase = Phase::Closed(takings);
        Ok(Answer::Closed {
            takings,
            claim,
            full,
        })
    }

    /// Questions 11 and 15, then the mark of campaign `n`.
    fn mark(&self, n: u64) -> Result<u64, u64> {
        ask(self.phase == Phase::Running, refusal::NOT_RUNNING)?;
        ask(n < self.count, refusal::NO_CAMPAIGN)?;
        Ok(1 << n)
    }

    /// Questions 11 to 14. A view may name none. Paused names must be in the
    /// plan too, but do not count towards the width.
    fn check_view(&self, set: u64) -> Result<(), u64> {
        ask(self.phase == Phase::Running, refusal::NOT_RUNNING)?;
        ask(self.views < MAX_VIEWS, refusal::VIEWS_FULL)?;
        ask(self.beyond(set) == 0, refusal::NAME_UNKNOWN)?;
        let names = u64::from((set & !self.paused).count_ones());
        ask(names <= self.width, refusal::NAME_COUNT)
    }

    /// Of the campaigns of a set, the one that can pay with the greatest price ×
    /// W(age), the lowest number among equals. A score of 0, usual for width 1,
    /// still plays.
    fn player(&self, set: u64) -> Option<usize> {
        let mut best = None;
        let mut top = 0;
        for i in members(set) {
            let c = &self.campaigns[i];
            if !c.can_pay() {
                continue;
            }
            let score = c.price * self.weight(c.age);
            if best.is_none() || score > top {
                best = Some(i);
                top = score;
            }
        }
        best
    }

    /// Counts the view: the player's play and turn, the others' age, the names.
    fn record_view(&mut self, set: u64, player: Option<usize>) {
        for i in members(set) {
            let c = &mut self.campaigns[i];
            c.named += 1;
            if Some(i) == player {
                c.plays += 1;
                c.turns += 1;
                c.age = 0;
            } else if c.can_pay() {
                c.age += 1;
                if c.age == self.depth {
                    c.turns += 1;
                    c.age = 0;
                }
            }
        }
        self.views += 1;
    }
}

#[cfg(test)]
mod tests {
    use super::*;

    #[test]
    fn table_holds_each_power_or_zero() {
        for base in 1..=MAX_WIDTH {
            for exponent in 0..=MAX_DEPTH {
                // 16^32 is 2^128, one past u128, so the product saturates.
                let mut exact: u128 = 1;
                for _ in 0..exponent {
                    exact = exact.saturating_mul(u128::from(base));
                }
                let fits = exact <= u128::from(MAX_POWER);
                let expected = if fits { exact as u64 } else { 0 };
                assert_eq!(power(base, exponent), expected, "{base}^{exponent}");
            }
        }
    }

    #[test]
    fn power_of_zero() {
        assert_eq!(power(0, 0), 1);
        assert_eq!(power(0, 1), 0);
        assert_eq!(power(0, MAX_DEPTH), 0);
    }

    #[test]
    fn weights_rise_from_start_to_whole_power() {
        let (day, _) = Day::blank().open(20, 3);
        assert_eq!(day.weight(0), 1 << 20);
        assert_eq!(day.weight(20), 3u64.pow(20));
        assert!((0..20).all(|a| 2 * day.weight(a + 1) == 3 * day.weight(a)));
    }

    #[test]
    fn weights_of_width_one() {
        let (day, _) = Day::blank().open(32, 1);
        assert!((0..32).all(|a| day.weight(a) == 0));
        assert_eq!(day.weight(32), 1);
    }

    #[test]
    fn members_rise() {
        let set = 1 | 1 << 5 | 1 << 63;
        assert_eq!(members(set).collect::<Vec<_>>(), [0, 5, 63]);
        assert_eq!(members(0).next(), None);
        assert_eq!(members(u64::MAX).count(), 64);
    }

    #[test]
    fn can_pay_is_plays_below_whole_plays() {
        for (price, budget, plays, expected) in [
            (5, 9, 0, true),
            (5, 9, 1, false),
            (5, 10, 1, true),
            (5, 10, 2, false),
            (1, MAX_BUDGET, MAX_VIEWS, true),
        ] {
            let campaign = Campaign {
                price,
                budget,
                plays,
                ..Campaign::ZERO
            };
            assert_eq!(campaign.can_pay(), expected);
            assert_eq!(campaign.can_pay(), plays < budget / price);
        }
    }
}
