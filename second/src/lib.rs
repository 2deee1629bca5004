//! The pump-screen controller: one day of campaigns, views and plays.
//!
//! [`day`] holds the state and its operations, [`lines`] the text forms, and
//! [`session`] turns lines of input into lines of answer. [`page`] prints the
//! station's page, and [`greatest`] finds what a day could have earned.

#![forbid(unsafe_code)]
#![warn(missing_docs)]

pub mod day;
pub mod greatest;
pub mod lines;
pub mod page;
pub mod refusal;
pub mod session;

pub use day::{Answer, Campaign, Day, Ledger, Phase};
pub use lines::Record;
pub use session::{Session, Stream};
