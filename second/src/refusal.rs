//! The numbers of the questions at the door; a refusal carries the first that fails.

/// The state is not sound.
pub const UNSOUND: u64 = 1;
/// A plan is opened while the phase is not Closed.
pub const NOT_CLOSED: u64 = 2;
/// The depth is out of range.
pub const DEPTH: u64 = 3;
/// The width is out of range.
pub const WIDTH: u64 = 4;
/// Width to the power depth is too large.
pub const POWER: u64 = 5;
/// A campaign is added, or the day started, while the phase is not Filling.
pub const NOT_FILLING: u64 = 6;
/// The plan already has all its campaigns.
pub const PLAN_FULL: u64 = 7;
/// The price is out of range.
pub const PRICE: u64 = 8;
/// The budget is out of range.
pub const BUDGET: u64 = 9;
/// The budgets together are too large.
pub const BUDGET_SUM: u64 = 10;
/// A view, a pause, a resume or a closing arrives while the phase is not Running.
pub const NOT_RUNNING: u64 = 11;
/// The day already has all its views.
pub const VIEWS_FULL: u64 = 12;
/// A view names a campaign outside the plan.
pub const NAME_UNKNOWN: u64 = 13;
/// A view names more unpaused campaigns than the width.
pub const NAME_COUNT: u64 = 14;
/// A tally, a pause or a resume is asked for a campaign outside the plan.
pub const NO_CAMPAIGN: u64 = 15;
/// The line is too long.
pub const LONG_LINE: u64 = 16;
/// The line is not one of the forms, or a record has a number out of its range.
pub const NOT_A_FORM: u64 = 17;
/// The lent buffer is too short for the line or the page, or fewer entries are
/// lent than there are views or campaigns.
pub const SHORT_BUFFER: u64 = 18;
/// Too many views are handed in for the greatest takings.
pub const MANY_VIEWS: u64 = 19;

/// The highest number there is.
pub const HIGHEST: u64 = MANY_VIEWS;
