//! The tests, as one program.

mod common;
mod days;
mod greatest;
mod limits;
mod lines;
mod page;
mod program;
mod recorded;
mod refusals;
mod soundness;
