//! Reads the lines of a recorded day from standard input and prints one line:
//!
//! ```text
//! (takings 16) (greatest 19) (ratio 16/19)
//! ```
//!
//! The takings are those of the state that the lines lead to, in any phase. The
//! greatest is what its plan could have earned on the views accepted since the
//! last accepted opening, each as its names that were unpaused when it came.
//! The ratio is in lowest terms, and 1/1 where the greatest is 0. If a question
//! fails, as 19 does after more than 256 such views, the line is its number:
//!
//! ```text
//! (refused 19)
//! ```

use second::greatest::{greatest, MAX_KNOWN_VIEWS};
use second::{day, lines, refusal, Day, Phase, Record, Session};
use std::io::{self, BufRead, Write};
use std::process::ExitCode;

fn main() -> ExitCode {
    match run(io::stdin().lock(), io::stdout().lock()) {
        Ok(()) => ExitCode::SUCCESS,
        Err(_) => ExitCode::FAILURE,
    }
}

/// The answers to the lines are left unsaid.
fn run(input: impl BufRead, mut output: impl Write) -> io::Result<()> {
    let mut session = Session::new();
    let mut views = Vec::new();
    for line in input.split(b'\n') {
        follow(&mut session, &mut views, &line?);
    }
    output.write_all(report(session.day(), &views).as_bytes())?;
    output.flush()
}

/// Answers one line. An accepted opening ends the list of views; an accepted
/// view joins it as its set of unpaused names.
fn follow(session: &mut Session, views: &mut Vec<u64>, line: &[u8]) {
    let before = session.day();
    let (accepted, paused) = (before.views, before.paused);
    let was_closed = matches!(before.phase, Phase::Closed(_));
    session.answer(line, &mut Vec::new());
    let after = session.day();
    match lines::read(line) {
        Ok(Record::Plan { .. }) if was_closed && after.phase == Phase::Filling => views.clear(),
        Ok(Record::View(set)) if after.views > accepted => views.push(set & !paused),
        _ => {}
    }
}

/// The one line to print.
fn report(day: &Day, views: &[u64]) -> String {
    match both_takings(day, views) {
        Ok((takings, greatest)) => {
            let (upper, lower) = ratio(takings, greatest);
            format!("(takings {takings}) (greatest {greatest}) (ratio {upper}/{lower})\n")
        }
        Err(number) => format!("(refused {number})\n"),
    }
}

/// The takings of the state and the greatest of the views, or a refusal number.
fn both_takings(day: &Day, views: &[u64]) -> Result<(u64, u64), u64> {
    let ledger = day.ledger().ok_or(refusal::UNSOUND)?;
    let mut allotment = [0; MAX_KNOWN_VIEWS];
    let mut campaign_figures = [0; day::MAX_CAMPAIGNS as usize];
    let mut view_figures = [0; MAX_KNOWN_VIEWS];
    let greatest = greatest(
        day,
        views,
        &mut allotment,
        &mut campaign_figures,
        &mut view_figures,
    )?;
    Ok((ledger.takings, greatest))
}

/// The fraction in lowest terms; 1/1 where nothing could be earned.
fn ratio(takings: u64, greatest: u64) -> (u64, u64) {
    if greatest == 0 {
        return (1, 1);
    }
    let common = common_divisor(takings, greatest);
    (takings / common, greatest / common)
}

/// The greatest common divisor; that of 0 and a number is the number.
fn common_divisor(mut a: u64, mut b: u64) -> u64 {
    while b > 0 {
        (a, b) = (b, a % b);
    }
    a
}

#[cfg(test)]
mod tests {
    use super::*;

    #[test]
    fn ratios_in_lowest_terms() {
        let cases = [
            ((16, 19), (16, 19)),
            ((16, 16), (1, 1)),
            ((4, 6), (2, 3)),
            ((6, 4), (3, 2)),
            ((1, 2_000_000_000), (1, 2_000_000_000)),
            ((1_500_000_000, 2_000_000_000), (3, 4)),
            ((2_000_000_000, 2_000_000_000), (1, 1)),
            // The day itself never takes nothing where it could take something.
            ((0, 7), (0, 1)),
            ((0, 0), (1, 1)),
        ];
        for ((takings, greatest), expected) in cases {
            assert_eq!(ratio(takings, greatest), expected);
        }
    }

    #[test]
    fn every_small_ratio() {
        for takings in 0..60 {
            for greatest in 1..60 {
                let divides = |c: &u64| takings % c == 0 && greatest % c == 0;
                let common = (1..=greatest).rev().find(divides).unwrap();
                let expected = (takings / common, greatest / common);
                assert_eq!(ratio(takings, greatest), expected);
            }
        }
    }

    #[test]
    fn failed_questions_show_their_numbers() {
        let blank = Day::blank();
        assert_eq!(report(&blank, &[0; 257]), "(refused 19)\n");
        assert_eq!(report(&blank, &[1]), "(refused 13)\n");
        let mut unsound = blank;
        unsound.paused = 1;
        assert_eq!(report(&unsound, &[1; 257]), "(refused 1)\n");
    }
}
