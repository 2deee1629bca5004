//! The station's page in plain Rust: the soundness of the whole state, the room, then spaces and what stands over them.

const CAMPAIGNS: usize = 64;
const LINE: usize = 41;
const MAX_POWER: u64 = 1 << 32;

#[derive(Clone, Copy, Default, PartialEq)]
pub struct Campaign {
    pub price: u32,
    pub budget: u32,
    pub plays: u16,
    pub turns: u16,
    pub age: u16,
    pub named: u16,
}

/// A running day.
pub struct Day {
    pub depth: u32,
    pub width: u64,
    pub count: usize,
    pub accepted: u64,
    pub paused: u64,
    pub campaigns: [Campaign; CAMPAIGNS],
}

impl Campaign {
    fn is_sound(&self, depth: u32, accepted: u64) -> bool {
        (1..=1_000_000).contains(&self.price)
            && (self.price..=2_000_000_000).contains(&self.budget)
            && u32::from(self.age) < depth
            && u64::from(self.price) * u64::from(self.plays) <= u64::from(self.budget)
            && self.plays <= self.turns
            && self.turns <= self.named
            && u64::from(self.named) <= accepted
    }
}

impl Day {
    /// The takings, where the state is sound.
    fn takings(&self) -> Option<u64> {
        let plan = (1..=32).contains(&self.depth) && (1..=16).contains(&self.width);
        let high = self.width.checked_pow(self.depth).filter(|p| plan && *p <= MAX_POWER)?;
        if self.count > CAMPAIGNS || self.accepted > 4_096 {
            return None;
        }
        if self.paused.checked_shr(self.count as u32).unwrap_or(0) != 0 {
            return None;
        }
        let weight = |age: u32| self.width.pow(age) * (self.width - 1).pow(self.depth - age);
        let mut weights = [0; 33];
        for (age, w) in weights.iter_mut().enumerate().take(self.depth as usize + 1) {
            *w = weight(age as u32);
        }
        let (planned, rest) = self.campaigns.split_at(self.count);
        let (mut budgets, mut takings, mut turned, mut waited) = (0, 0, 0, 0);
        for c in planned {
            if !c.is_sound(self.depth, self.accepted) {
                return None;
            }
            let price = u64::from(c.price);
            budgets += u64::from(c.budget);
            takings += price * u64::from(c.plays);
            turned += price * u64::from(c.turns);
            waited += price * (weights[c.age as usize] - weights[0]);
        }
        if budgets > 2_000_000_000 || rest.iter().any(|c| *c != Campaign::default()) {
            return None;
        }
        let claim = (high - weights[0]).checked_mul(turned)?.checked_add(waited)?;
        (claim <= high * takings).then_some(takings)
    }

    /// Prints the page to the front of out and gives its length, or the number of the question that failed.
    pub fn page(&self, out: &mut [u8]) -> Result<usize, u64> {
        let takings = self.takings().ok_or(1u64)?;
        let whole = LINE * (self.count + 1);
        let out = out.get_mut(..whole).ok_or(18u64)?;
        out.fill(b' ');
        let (rows, last) = out.split_at_mut(LINE * self.count);
        for (i, (line, c)) in rows.chunks_exact_mut(LINE).zip(&self.campaigns).enumerate() {
            put(&mut line[..3], i as u64);
            put(&mut line[3..9], u64::from(c.plays));
            put_cents(&mut line[9..20], u64::from(c.price));
            put_cents(&mut line[20..34], u64::from(c.price) * u64::from(c.plays));
            put(&mut line[34..40], u64::from(c.named));
            line[40] = b'\n';
        }
        last[..5].copy_from_slice(b"total");
        put_cents(&mut last[20..34], takings);
        last[40] = b'\n';
        Ok(whole)
    }
}

/// The numeral of n, flush right.
fn put(field: &mut [u8], mut n: u64) {
    for b in field.iter_mut().rev() {
        *b = b'0' + (n % 10) as u8;
        n /= 10;
        if n == 0 {
            return;
        }
    }
}

/// An amount of n cents, flush right.
fn put_cents(field: &mut [u8], n: u64) {
    let (units, cents) = field.split_at_mut(field.len() - 3);
    cents[0] = b'.';
    cents[1] = b'0' + (n / 10 % 10) as u8;
    cents[2] = b'0' + (n % 10) as u8;
    put(units, n / 100);
}
