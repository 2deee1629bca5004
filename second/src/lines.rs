//! Bracket lines: thirteen forms, a reader and a writer.

use crate::day::{Answer, MAX_CAMPAIGNS};
use crate::refusal;

/// The longest line, its byte 10 not counted.
pub const MAX_LINE: usize = 200;

/// The greatest depth, width, price and budget that a line can say: twelve
/// digits. Whether the day takes them is for its own questions.
const MAX_INPUT: u64 = 999_999_999_999;
/// The greatest price paid and the greatest count in an output line.
const MAX_NUMBER: u64 = u32::MAX as u64;
/// The greatest takings, claim and full.
const MAX_TOTAL: u64 = u64::MAX;
/// The greatest campaign number.
const MAX_NAME: u64 = MAX_CAMPAIGNS - 1;

/// What one line says. Fields are wide enough to hold numbers out of range,
/// which the writer refuses.
#[derive(Clone, Copy, Debug, PartialEq, Eq)]
pub enum Record {
    /// `(plan (depth 2) (width 2))`
    Plan {
        /// The paper's k.
        depth: u64,
        /// The paper's d.
        width: u64,
    },
    /// `(campaign (price 5) (budget 10))`
    Campaign {
        /// Cents for one play.
        price: u64,
        /// Cents for the day.
        budget: u64,
    },
    /// `(start)`
    Start,
    /// `(view 0 1)`, as a set with bit i for campaign i.
    View(u64),
    /// `(pause 0)`
    Pause(u64),
    /// `(resume 0)`
    Resume(u64),
    /// `(close)`
    Close,
    /// One of the six output forms.
    Output(Answer),
}

/// Reads a line handed over without its byte 10; gives the record or a refusal
/// number. The length is asked first, whatever the bytes are.
pub fn read(line: &[u8]) -> Result<Record, u64> {
    if line.len() > MAX_LINE {
        return Err(refusal::LONG_LINE);
    }
    let mut reader = Reader { rest: line };
    reader.record().ok_or(refusal::NOT_A_FORM)
}

/// Writes the record's line with its byte 10 to the front of the buffer; gives
/// its length or a refusal number. A refusal leaves the buffer as it was.
pub fn write(record: &Record, buffer: &mut [u8]) -> Result<usize, u64> {
    if !in_range(record) {
        return Err(refusal::NOT_A_FORM);
    }
    let line = Line::of(record);
    let front = buffer.get_mut(..line.length).ok_or(refusal::SHORT_BUFFER)?;
    front.copy_from_slice(line.written());
    Ok(line.length)
}

/// Appends the record's line with its byte 10, or gives a refusal number.
pub fn append(record: &Record, out: &mut Vec<u8>) -> Result<(), u64> {
    if !in_range(record) {
        return Err(refusal::NOT_A_FORM);
    }
    out.extend_from_slice(Line::of(record).written());
    Ok(())
}

/// Whether every number of the record is in its range. Takings, claim and full
/// fill their type, and a set holds only names from 0 to 63.
fn in_range(record: &Record) -> bool {
    let within = |max: u64, numbers: &[u64]| numbers.iter().all(|&n| n <= max);
    match *record {
        Record::Plan { depth, width } => within(MAX_INPUT, &[depth, width]),
        Record::Campaign { price, budget } => within(MAX_INPUT, &[price, budget]),
        Record::Pause(campaign) | Record::Resume(campaign) => campaign <= MAX_NAME,
        Record::Output(Answer::Play { campaign, paid }) => {
            campaign <= MAX_NAME && within(MAX_NUMBER, &[paid])
        }
        Record::Output(Answer::Refused(number)) => (1..=refusal::HIGHEST).contains(&number),
        Record::Output(Answer::Tally {
            campaign,
            plays,
            turns,
            age,
            named,
        }) => campaign <= MAX_NAME && within(MAX_NUMBER, &[plays, turns, age, named]),
        Record::Start | Record::View(_) | Record::Close => true,
        Record::Output(Answer::Ok | Answer::Nobody | Answer::Closed { .. }) => true,
    }
}

/// The value of a digit.
fn digit(byte: u8) -> Option<u64> {
    match byte {
        48..=57 => Some(u64::from(byte - 48)),
        _ => None,
    }
}

/// The part of a line not yet read.
struct Reader<'a> {
    rest: &'a [u8],
}

impl<'a> Reader<'a> {
    /// One form and nothing after it.
    fn record(&mut self) -> Option<Record> {
        self.text(b"(")?;
        let record = match self.word() {
            b"view" => Record::View(self.names()?),
            b"plan" => self.plan()?,
            b"campaign" => self.campaign()?,
            b"start" => Record::Start,
            b"pause" => Record::Pause(self.argument(MAX_NAME)?),
            b"resume" => Record::Resume(self.argument(MAX_NAME)?),
            b"close" => Record::Close,
            word => Record::Output(self.answer(word)?),
        };
        self.text(b")")?;
        self.rest.is_empty().then_some(record)
    }

    fn plan(&mut self) -> Option<Record> {
        Some(Record::Plan {
            depth: self.field(b" (depth ", MAX_INPUT)?,
            width: self.field(b" (width ", MAX_INPUT)?,
        })
    }

    fn campaign(&mut self) -> Option<Record> {
        Some(Record::Campaign {
            price: self.field(b" (price ", MAX_INPUT)?,
            budget: self.field(b" (budget ", MAX_INPUT)?,
        })
    }

    /// The rest of an output form that begins with `word`.
    fn answer(&mut self, word: &[u8]) -> Option<Answer> {
        match word {
            b"ok" => Some(Answer::Ok),
            b"nobody" => Some(Answer::Nobody),
            b"play" => self.play(),
            b"refused" => self.refused(),
            b"closed" => self.closed(),
            b"tally" => self.tally(),
            _ => None,
        }
    }

    fn play(&mut self) -> Option<Answer> {
        Some(Answer::Play {
            campaign: self.argument(MAX_NAME)?,
            paid: self.field(b" (paid ", MAX_NUMBER)?,
        })
    }

    fn refused(&mut self) -> Option<Answer> {
        let number = self.argument(refusal::HIGHEST)?;
        (number > 0).then_some(Answer::Refused(number))
    }

    fn closed(&mut self) -> Option<Answer> {
        Some(Answer::Closed {
            takings: self.field(b" (takings ", MAX_TOTAL)?,
            claim: self.field(b" (claim ", MAX_TOTAL)?,
            full: self.field(b" (full ", MAX_TOTAL)?,
        })
    }

    fn tally(&mut self) -> Option<Answer> {
        Some(Answer::Tally {
            campaign: self.argument(MAX_NAME)?,
            plays: self.field(b" (plays ", MAX_NUMBER)?,
            turns: self.field(b" (turns ", MAX_NUMBER)?,
            age: self.field(b" (age ", MAX_NUMBER)?,
            named: self.field(b" (named ", MAX_NUMBER)?,
        })
    }

    /// Strictly rising names, each after one space.
    fn names(&mut self) -> Option<u64> {
        let mut set = 0u64;
        while self.text(b" ").is_some() {
            let name = self.number(MAX_NAME)?;
            if set >> name != 0 {
                return None;
            }
            set |= 1 << name;
        }
        Some(set)
    }

    /// A bracketed number: `opening` runs up to and with the space before it.
    fn field(&mut self, opening: &[u8], max: u64) -> Option<u64> {
        self.text(opening)?;
        let number = self.number(max)?;
        self.text(b")")?;
        Some(number)
    }

    /// A bare number after one space.
    fn argument(&mut self, max: u64) -> Option<u64> {
        self.text(b" ")?;
        self.number(max)
    }

    /// A numeral without leading zeros, at most `max`.
    fn number(&mut self, max: u64) -> Option<u64> {
        let (&first, mut rest) = self.rest.split_first()?;
        let mut value = digit(first)?;
        while let Some((next, after)) = rest.split_first().and_then(|(&b, r)| Some((digit(b)?, r)))
        {
            if first == b'0' {
                return None;
            }
            value = value.checked_mul(10)?.checked_add(next)?;
            rest = after;
        }
        self.rest = rest;
        (value <= max).then_some(value)
    }

    /// The lower-case letters that come next.
    fn word(&mut self) -> &'a [u8] {
        let is_letter = |b: &u8| b.is_ascii_lowercase();
        let length = self.rest.iter().take_while(|b| is_letter(b)).count();
        let (word, rest) = self.rest.split_at(length);
        self.rest = rest;
        word
    }

    /// Exactly these bytes.
    fn text(&mut self, expected: &[u8]) -> Option<()> {
        self.rest = self.rest.strip_prefix(expected)?;
        Some(())
    }
}

/// A line being written. The longest, a view of all 64 names, has 189 bytes
/// with its byte 10.
struct Line {
    bytes: [u8; MAX_LINE + 1],
    length: usize,
}

impl Line {
    /// The line of a record whose numbers are in range.
    fn of(record: &Record) -> Line {
        let mut line = Line {
            bytes: [0; MAX_LINE + 1],
            length: 0,
        };
        line.record(record);
        line.text(b")\n");
        line
    }

    fn written(&self) -> &[u8] {
        &self.bytes[..self.length]
    }

    /// All but the last bracket.
    fn record(&mut self, record: &Record) {
        match *record {
            Record::Plan { depth, width } => {
                self.text(b"(plan");
                self.field(b" (depth ", depth);
                self.field(b" (width ", width);
            }
            Record::Campaign { price, budget } => {
                self.text(b"(campaign");
                self.field(b" (price ", price);
                self.field(b" (budget ", budget);
            }
            Record::Start => self.text(b"(start"),
            Record::View(set) => self.view(set),
            Record::Pause(campaign) => self.numbered(b"(pause ", campaign),
            Record::Resume(campaign) => self.numbered(b"(resume ", campaign),
            Record::Close => self.text(b"(close"),
            Record::Output(answer) => self.answer(answer),
        }
    }

    fn view(&mut self, set: u64) {
        self.text(b"(view");
        for name in (0..MAX_CAMPAIGNS).filter(|name| set >> name & 1 == 1) {
            self.numbered(b" ", name);
        }
    }

    fn answer(&mut self, answer: Answer) {
        match answer {
            Answer::Ok => self.text(b"(ok"),
            Answer::Nobody => self.text(b"(nobody"),
            Answer::Play { campaign, paid } => {
                self.numbered(b"(play ", campaign);
                self.field(b" (paid ", paid);
            }
            Answer::Refused(number) => self.numbered(b"(refused ", number),
            Answer::Closed {
                takings,
                claim,
                full,
            } => {
                self.text(b"(closed");
                self.field(b" (takings ", takings);
                self.field(b" (claim ", claim);
                self.field(b" (full ", full);
            }
            Answer::Tally {
                campaign,
                plays,
                turns,
                age,
                named,
            } => {
                self.numbered(b"(tally ", campaign);
                self.field(b" (plays ", plays);
                self.field(b" (turns ", turns);
                self.field(b" (age ", age);
                self.field(b" (named ", named);
            }
        }
    }

    fn field(&mut self, opening: &[u8], number: u64) {
        self.numbered(opening, number);
        self.text(b")");
    }

    /// Copied out wherever it is used, so that each opening has a known length.
    #[inline(always)]
    fn numbered(&mut self, opening: &[u8], number: u64) {
        self.text(opening);
        self.number(number);
    }

    fn number(&mut self, mut number: u64) {
        let mut digits = [0; 20];
        let mut first = digits.len();
        loop {
            first -= 1;
            digits[first] = b'0' + (number % 10) as u8;
            number /= 10;
            if number == 0 {
                break;
            }
        }
        self.text(&digits[first..]);
    }

    fn text(&mut self, text: &[u8]) {
        let end = self.length + text.len();
        self.bytes[self.length..end].copy_from_slice(text);
        self.length = end;
    }
}
