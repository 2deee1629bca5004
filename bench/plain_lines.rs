//! A plain parser and printer of the same forms, as one would write them in Rust by hand.
#[derive(Clone, Copy)]
pub enum Record {
    Plan { depth: u64, width: u64 },
    Campaign { price: u64, budget: u64 },
    Start,
    View(u64),
    Close,
    Done,
    Play { campaign: u64, paid: u64 },
    Nobody,
    Refused(u64),
    Closed { takings: u64, claim: u64, full: u64 },
    Tally { campaign: u64, plays: u64, turns: u64, age: u64, named: u64 },
    Pause(u64),
    Resume(u64),
}
use Record::*;

struct Parser<'a> {
    s: &'a [u8],
}

impl Parser<'_> {
    fn word(&mut self, w: &[u8]) -> Option<()> {
        self.s = self.s.strip_prefix(w)?;
        Some(())
    }

    fn number(&mut self, max: u64) -> Option<u64> {
        let mut i = 0;
        let mut n: u64 = 0;
        while let Some(&b) = self.s.get(i) {
            if !b.is_ascii_digit() {
                break;
            }
            n = n.checked_mul(10)?.checked_add((b - b'0') as u64)?;
            i += 1;
        }
        if i == 0 || (i > 1 && self.s[0] == b'0') || n > max {
            return None;
        }
        self.s = &self.s[i..];
        Some(n)
    }

    fn names(&mut self) -> Option<u64> {
        let mut set = 0u64;
        let mut least = 0;
        while self.word(b" ").is_some() {
            let n = self.number(63)?;
            if n < least {
                return None;
            }
            set |= 1 << n;
            least = n + 1;
        }
        Some(set)
    }
}

// the greatest number of an input line, and of an output line
const I: u64 = 999_999_999_999;
const U: u64 = 4294967295;
const W: u64 = u64::MAX;

fn parse(s: &[u8]) -> Option<Record> {
    let mut p = Parser { s };
    p.word(b"(")?;
    let end = p.s.iter().position(|b| !b.is_ascii_lowercase())?;
    let (word, rest) = p.s.split_at(end);
    p.s = rest;
    let r = match word {
        b"plan" => {
            p.word(b" (depth ")?;
            let depth = p.number(I)?;
            p.word(b") (width ")?;
            let width = p.number(I)?;
            p.word(b")")?;
            Plan { depth, width }
        }
        b"campaign" => {
            p.word(b" (price ")?;
            let price = p.number(I)?;
            p.word(b") (budget ")?;
            let budget = p.number(I)?;
            p.word(b")")?;
            Campaign { price, budget }
        }
        b"start" => Start,
        b"view" => View(p.names()?),
        b"pause" => {
            p.word(b" ")?;
            Pause(p.number(63)?)
        }
        b"resume" => {
            p.word(b" ")?;
            Resume(p.number(63)?)
        }
        b"close" => Close,
        b"ok" => Done,
        b"play" => {
            p.word(b" ")?;
            let campaign = p.number(63)?;
            p.word(b" (paid ")?;
            let paid = p.number(U)?;
            p.word(b")")?;
            Play { campaign, paid }
        }
        b"nobody" => Nobody,
        b"refused" => {
            p.word(b" ")?;
            let number = p.number(19)?;
            if number == 0 {
                return None;
            }
            Refused(number)
        }
        b"closed" => {
            p.word(b" (takings ")?;
            let takings = p.number(W)?;
            p.word(b") (claim ")?;
            let claim = p.number(W)?;
            p.word(b") (full ")?;
            let full = p.number(W)?;
            p.word(b")")?;
            Closed { takings, claim, full }
        }
        b"tally" => {
            p.word(b" ")?;
            let campaign = p.number(63)?;
            p.word(b" (plays ")?;
            let plays = p.number(U)?;
            p.word(b") (turns ")?;
            let turns = p.number(U)?;
            p.word(b") (age ")?;
            let age = p.number(U)?;
            p.word(b") (named ")?;
            let named = p.number(U)?;
            p.word(b")")?;
            Tally { campaign, plays, turns, age, named }
        }
        _ => return None,
    };
    p.word(b")")?;
    p.s.is_empty().then_some(r)
}

#[inline(never)]
pub fn read_line(s: &[u8]) -> Result<Record, u64> {
    if s.len() > 200 {
        return Err(16);
    }
    parse(s).ok_or(17)
}

struct Printer {
    line: [u8; 201],
    len: usize,
}

impl Printer {
    fn word(&mut self, w: &[u8]) -> &mut Self {
        self.line[self.len..self.len + w.len()].copy_from_slice(w);
        self.len += w.len();
        self
    }

    fn number(&mut self, mut n: u64) -> &mut Self {
        let mut digits = [0u8; 20];
        let mut i = 20;
        loop {
            i -= 1;
            digits[i] = b'0' + (n % 10) as u8;
            n /= 10;
            if n == 0 {
                break;
            }
        }
        self.word(&digits[i..])
    }
}

fn in_range(r: Record) -> bool {
    match r {
        Plan { depth, width } => depth <= I && width <= I,
        Campaign { price, budget } => price <= I && budget <= I,
        Play { campaign, paid } => campaign < 64 && paid <= U,
        Refused(number) => (1..=19).contains(&number),
        Pause(campaign) | Resume(campaign) => campaign < 64,
        Tally { campaign, plays, turns, age, named } => {
            campaign < 64 && plays <= U && turns <= U && age <= U && named <= U
        }
        _ => true,
    }
}

#[inline(never)]
pub fn write_line(r: Record, out: &mut [u8]) -> Result<usize, u64> {
    if !in_range(r) {
        return Err(17);
    }
    let mut p = Printer { line: [0; 201], len: 0 };
    match r {
        Plan { depth, width } => p.word(b"(plan (depth ").number(depth).word(b") (width ").number(width).word(b"))\n"),
        Campaign { price, budget } => {
            p.word(b"(campaign (price ").number(price).word(b") (budget ").number(budget).word(b"))\n")
        }
        Start => p.word(b"(start)\n"),
        View(set) => {
            p.word(b"(view");
            let mut v = set;
            while v != 0 {
                p.word(b" ").number(v.trailing_zeros() as u64);
                v &= v - 1;
            }
            p.word(b")\n")
        }
        Pause(campaign) => p.word(b"(pause ").number(campaign).word(b")\n"),
        Resume(campaign) => p.word(b"(resume ").number(campaign).word(b")\n"),
        Close => p.word(b"(close)\n"),
        Done => p.word(b"(ok)\n"),
        Play { campaign, paid } => p.word(b"(play ").number(campaign).word(b" (paid ").number(paid).word(b"))\n"),
        Nobody => p.word(b"(nobody)\n"),
        Refused(number) => p.word(b"(refused ").number(number).word(b")\n"),
        Closed { takings, claim, full } => p
            .word(b"(closed (takings ")
            .number(takings)
            .word(b") (claim ")
            .number(claim)
            .word(b") (full ")
            .number(full)
            .word(b"))\n"),
        Tally { campaign, plays, turns, age, named } => p
            .word(b"(tally ")
            .number(campaign)
            .word(b" (plays ")
            .number(plays)
            .word(b") (turns ")
            .number(turns)
            .word(b") (age ")
            .number(age)
            .word(b") (named ")
            .number(named)
            .word(b"))\n"),
    };
    if out.len() < p.len {
        return Err(18);
    }
    out[..p.len].copy_from_slice(&p.line[..p.len]);
    Ok(p.len)
}
