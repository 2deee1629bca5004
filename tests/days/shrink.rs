//! The smallest input that can be found for a difference.

use std::time::{Duration, Instant};

/// Shrinking ends after this time with what it has.
const LIMIT: Duration = Duration::from_secs(60);

/// Leaves out runs of pieces, from long runs to single ones, as long as the outputs still differ.
fn fewer<'a>(mut pieces: Vec<&'a [u8]>, end: Instant, differ: &dyn Fn(&[u8]) -> bool) -> Vec<&'a [u8]> {
    let mut size = pieces.len();
    while size > 0 && Instant::now() < end {
        let before = pieces.len();
        let mut at = 0;
        while at < pieces.len() && Instant::now() < end {
            let rest = (at + size).min(pieces.len());
            let kept = [&pieces[..at], &pieces[rest..]].concat();
            if differ(&kept.concat()) {
                pieces = kept;
            } else {
                at = rest;
            }
        }
        // single pieces are tried until none can go
        if size > 1 || pieces.len() == before {
            size /= 2;
        }
    }
    pieces
}

/// By whole lines, then by the bytes of each line that is left.
pub fn least(input: &[u8], differ: &dyn Fn(&[u8]) -> bool) -> Vec<u8> {
    let end = Instant::now() + LIMIT;
    let lines = fewer(input.split_inclusive(|b| *b == 10).collect(), end, differ);
    let mut lines: Vec<Vec<u8>> = lines.into_iter().map(<[u8]>::to_vec).collect();
    for at in (0..lines.len()).rev() {
        let (front, back) = (lines[..at].concat(), lines[at + 1..].concat());
        let within = |line: &[u8]| differ(&[&front, line, &back].concat());
        let line = fewer(lines[at].chunks(1).collect(), end, &within).concat();
        lines[at] = line;
    }
    lines.concat()
}
