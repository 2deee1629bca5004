//! The program that prints what a recorded day took and could have taken, beside the second one.

use crate::random::Random;
use crate::tally::Tally;
use crate::{days, outputs};

/// What is printed for files of the corpus, worked out from the documents.
const KNOWN: [(&str, &str); 3] = [
    ("listing", "(takings 16) (greatest 16) (ratio 1/1)\n"),
    ("empty", "(takings 0) (greatest 0) (ratio 1/1)\n"),
    // 4,096 views of a campaign that is paused
    ("pauses", "(refused 19)\n"),
];

const EVENTS: [&str; 5] = [
    "programs: as much as could be",
    "programs: less than could be",
    "programs: nothing to take",
    "programs: 256 views",
    "programs: refused 19",
];

fn see(tally: &mut Tally, line: &[u8]) {
    let line = String::from_utf8_lossy(line);
    tally.seen.see(match &line[..] {
        "(refused 19)\n" => "programs: refused 19",
        _ if line.contains("(greatest 0)") => "programs: nothing to take",
        _ if line.ends_with("(ratio 1/1)\n") => "programs: as much as could be",
        _ => "programs: less than could be",
    });
}

/// What both print for an input, byte for byte the same.
fn same(tally: &mut Tally, programs: [&str; 2], name: &str, input: &[u8]) -> Vec<u8> {
    let line = outputs::same(programs, input).unwrap_or_else(|e| tally.fail(&format!("{name}: {e}")));
    see(tally, &line);
    tally.passed += 1;
    line
}

/// A day of so many accepted views, of which the dearer campaign could have left one to the other, and refused lines
/// among them.
fn day_of(views: usize) -> Vec<u8> {
    let mut lines = vec!["(plan (depth 1) (width 2))"];
    lines.extend(["(campaign (price 3) (budget 3))", "(campaign (price 2) (budget 2))", "(start)", "(view 0 1)"]);
    lines.extend(["(view 2)", "(pause 1)", "(view 0 1)", "(resume 1)", "(plan (depth 1) (width 1))"]);
    lines.extend(vec!["(view)"; views - 2]);
    lines.extend(["(view 0 0)", "(close)", "(view)"]);
    lines.join("\n").into_bytes()
}

/// Both programs on the days of the folder and on generated ones.
pub fn programs(tally: &mut Tally, programs: [&str; 2], corpus: &str, seed: u64) {
    tally.seen.want(&EVENTS);
    let mut known = 0;
    for file in outputs::files(corpus) {
        let input = std::fs::read(&file).expect("a file of the corpus");
        let line = same(tally, programs, &file.display().to_string(), &input);
        let due = KNOWN.iter().find(|(name, _)| file.ends_with(name));
        if due.is_some_and(|(_, due)| line != due.as_bytes()) {
            tally.fail(&format!("{file:?}: another line: {}", line.escape_ascii()));
        }
        known += usize::from(due.is_some());
    }
    if known < KNOWN.len() {
        tally.fail("not every day whose line is known was tried");
    }
    for (views, due) in [(256, "(takings 3) (greatest 5) (ratio 3/5)\n"), (257, "(refused 19)\n")] {
        let line = same(tally, programs, &format!("{views} views"), &day_of(views));
        if line != due.as_bytes() {
            tally.fail(&format!("{views} views: another line: {}", line.escape_ascii()));
        }
        tally.seen.see_if(views == 256, "programs: 256 views");
    }
    for seed in seed..seed + 300 {
        same(tally, programs, &format!("seed {seed}"), &days::day(&mut Random::new(seed)));
    }
}
