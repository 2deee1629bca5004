//! Lines in, answers out.

use crate::day::{Answer, Day, Outcome};
use crate::lines::{self, Record, MAX_LINE};
use crate::refusal;

/// The lowest bit of each of eight bytes.
const LOW_BITS: u64 = u64::from_le_bytes([1; 8]);
/// Eight line ends.
const LINE_ENDS: u64 = u64::from_le_bytes([b'\n'; 8]);

/// A day driven by lines, beginning with the blank state.
///
/// The state is private and only the operations change it, so it is always
/// sound; question 1 is not asked again for each line.
pub struct Session {
    day: Day,
}

impl Default for Session {
    fn default() -> Self {
        Session::new()
    }
}

impl Session {
    /// Begins with the blank state.
    pub fn new() -> Session {
        Session { day: Day::blank() }
    }

    /// The state after the lines so far.
    pub fn day(&self) -> &Day {
        &self.day
    }

    /// Appends the answer to one line, handed over without its byte 10. A line
    /// cut off anywhere beyond [`MAX_LINE`] bytes is answered like the whole.
    pub fn answer(&mut self, line: &[u8], out: &mut Vec<u8>) {
        let outcome = lines::read(line).and_then(|record| self.perform(record));
        let answer = outcome.unwrap_or_else(Answer::Refused);
        put(answer, out);
        if matches!(answer, Answer::Closed { .. }) {
            self.put_tallies(out);
        }
    }

    fn perform(&mut self, record: Record) -> Outcome {
        match record {
            Record::View(set) => self.day.try_view(set),
            Record::Plan { depth, width } => self.day.try_open(depth, width),
            Record::Campaign { price, budget } => self.day.try_add(price, budget),
            Record::Start => self.day.try_start(),
            Record::Pause(n) => self.day.try_pause(n),
            Record::Resume(n) => self.day.try_resume(n),
            Record::Close => self.day.try_close(),
            Record::Output(_) => Err(refusal::NOT_A_FORM),
        }
    }

    /// One tally line for each campaign in number order.
    fn put_tallies(&mut self, out: &mut Vec<u8>) {
        for n in 0..self.day.count {
            let outcome = self.day.try_tally(n);
            put(outcome.unwrap_or_else(Answer::Refused), out);
        }
    }
}

/// Appends an answer's line. The numbers of an answer on a sound state are
/// always in range.
fn put(answer: Answer, out: &mut Vec<u8>) {
    let written = lines::append(&Record::Output(answer), out);
    debug_assert!(written.is_ok());
}

/// Splits input that arrives in pieces of any size into lines for a session.
pub struct Stream {
    session: Session,
    /// The front of a line whose end has not arrived; one byte over the limit
    /// is enough to know that it is too long.
    held: [u8; MAX_LINE + 1],
    length: usize,
}

impl Default for Stream {
    fn default() -> Self {
        Stream::new()
    }
}

impl Stream {
    /// Begins with the blank state and no input.
    pub fn new() -> Stream {
        Stream {
            session: Session::new(),
            held: [0; MAX_LINE + 1],
            length: 0,
        }
    }

    /// Appends the answers to all lines that end in this piece.
    pub fn feed(&mut self, mut piece: &[u8], out: &mut Vec<u8>) {
        while let Some(end) = find_line_end(piece) {
            let line = &piece[..end];
            if self.length == 0 {
                self.session.answer(line, out);
            } else {
                self.hold(line);
                self.answer_held(out);
            }
            piece = &piece[end + 1..];
        }
        self.hold(piece);
    }

    /// Ends the input: a last line without byte 10 counts if it has bytes.
    pub fn finish(&mut self, out: &mut Vec<u8>) {
        if self.length > 0 {
            self.answer_held(out);
        }
    }

    fn answer_held(&mut self, out: &mut Vec<u8>) {
        self.session.answer(&self.held[..self.length], out);
        self.length = 0;
    }

    /// Keeps as much of the bytes as there is room for.
    fn hold(&mut self, bytes: &[u8]) {
        let kept = bytes.len().min(self.held.len() - self.length);
        let end = self.length + kept;
        self.held[self.length..end].copy_from_slice(&bytes[..kept]);
        self.length = end;
    }
}

/// The place of the first byte 10, sought eight bytes at a time.
fn find_line_end(bytes: &[u8]) -> Option<usize> {
    let (words, rest) = bytes.as_chunks::<8>();
    for (i, word) in words.iter().enumerate() {
        let hits = zero_bytes(u64::from_le_bytes(*word) ^ LINE_ENDS);
        if hits != 0 {
            return Some(8 * i + hits.trailing_zeros() as usize / 8);
        }
    }
    let place = rest.iter().position(|&b| b == b'\n')?;
    Some(8 * words.len() + place)
}

/// Marks the top bit of the lowest byte that is 0; what is marked above it does
/// not count. Without such a byte nothing is marked.
fn zero_bytes(word: u64) -> u64 {
    word.wrapping_sub(LOW_BITS) & !word & (LOW_BITS << 7)
}

#[cfg(test)]
mod tests {
    use super::*;

    #[test]
    fn line_end_is_the_first_byte_10() {
        let others = [0, 9, 11, 10 ^ 128, 11 ^ 128, 255];
        for length in 0..40 {
            for other in others {
                let mut bytes = vec![other; length];
                assert_eq!(find_line_end(&bytes), None);
                for place in (0..length).rev() {
                    bytes[place] = b'\n';
                    assert_eq!(find_line_end(&bytes), Some(place));
                    let alone = [&vec![other; place][..], b"\n\x0b\x0b"].concat();
                    assert_eq!(find_line_end(&alone), Some(place));
                }
            }
        }
    }
}
