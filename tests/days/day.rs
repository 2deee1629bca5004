//! Generated input: some days after one another, among them lines aimed at each refusal that the phase allows.

use crate::noise;
use crate::random::Random;
use crate::state::{deepest, Call, Phase, State, MOST_BUDGET, MOST_CAMPAIGNS, MOST_PRICE, MOST_VIEWS};

/// What the campaigns of a day have in common.
#[derive(Clone, Copy, PartialEq)]
enum Style {
    /// Any prices, and budgets for up to 60 plays.
    Mixed,
    /// One price for all: equal scores among campaigns of equal age.
    OnePrice,
    /// Prices d^i × (d − 1)^(6 − i): equal scores among campaigns of other prices and ages.
    Stepped,
    /// One to three plays each: most views find nobody.
    Poor,
    /// The greatest price, and budgets that together make the most there may be.
    Rich,
}

const STYLES: [Style; 5] = [Style::Mixed, Style::OnePrice, Style::Stepped, Style::Poor, Style::Rich];

struct Maker {
    r: Random,
    state: State,
    out: Vec<u8>,
}

impl Maker {
    /// A line, and the state that follows it.
    fn put(&mut self, line: &[u8]) {
        self.state.answer(line);
        self.out.extend(line);
        self.out.push(10);
    }

    fn call(&mut self, call: Call) {
        self.put(call.line().as_bytes());
    }

    /// Up to `most` lines that are refused here.
    fn refusals(&mut self, most: u64) {
        for _ in 0..self.r.below(most + 1) {
            let line = match self.r.below(8) {
                0 => noise::long(&mut self.r),
                1 | 2 => noise::no_form(&mut self.r),
                _ => {
                    let call = noise::refused_call(&mut self.r, &self.state);
                    self.call(call);
                    continue;
                }
            };
            self.put(&line);
        }
    }

    fn plan(&mut self) -> (u64, u64) {
        let width = if self.r.one_in(4) { self.r.of(&[1, 2, 16]) } else { self.r.within(1, 16) };
        let top = deepest(width);
        let depth = match self.r.below(6) {
            0 => 1,
            1 | 2 => top,
            _ => self.r.within(1, top),
        };
        (depth, width)
    }

    /// Price and budget of the next campaign, when `open` more are wanted. The money is kept for all of them.
    fn terms(&mut self, style: Style, open: u64) -> (u64, u64) {
        let left = MOST_BUDGET - self.state.budgets();
        let base = self.state.width.min(9);
        let r = &mut self.r;
        if style == Style::Rich {
            let plays = r.within(1, 900).min(left / MOST_PRICE);
            return (MOST_PRICE, if open == 1 { left } else { MOST_PRICE * plays });
        }
        if r.one_in(15) {
            return (r.of(&[1, 2, MOST_PRICE, MOST_PRICE + 1]), r.of(&[1, 2, MOST_PRICE, left, left + 1]));
        }
        let step = r.below(7) as u32;
        let price = match style {
            Style::OnePrice => 1 + self.state.depth * 7,
            Style::Stepped => (base.pow(step) * (base - 1).pow(6 - step)).max(1),
            _ if r.one_in(4) => r.within(1, 4),
            _ => r.within(1, MOST_PRICE),
        };
        let most = if style == Style::Poor { 3 } else { 60 };
        let plays = r.within(1, most).min(left / open / price).max(1);
        (price, if r.one_in(8) { price } else { price * plays + r.below(price) })
    }

    /// A set of up to d campaigns; often as many as d, and often the same ones, so that some age together. Where there
    /// are none, often one that the plan lacks.
    fn names(&mut self) -> u64 {
        let (count, width) = (self.state.count().clamp(1, 64), self.state.width);
        if self.r.one_in(if self.state.count() == 0 { 2 } else { 12 }) {
            return 0;
        }
        let wanted = if self.r.one_in(3) { width } else { self.r.within(1, width) };
        let from = self.r.below(count);
        let near = self.r.one_in(2);
        let mut set = 0u64;
        for i in 0..wanted {
            let name = if near { from + i } else { self.r.below(count) };
            set |= 1 << (name % count);
        }
        // beside any number of paused ones, or these alone
        let paused = self.state.paused() & if self.r.one_in(2) { u64::MAX } else { self.r.next() };
        match self.r.below(8) {
            0 => set | paused,
            1 if paused > 0 => paused,
            _ => set,
        }
    }

    /// A campaign is paused or resumed, now and then twice, or all of them are.
    fn mark(&mut self) {
        let (count, pause) = (self.state.count(), self.r.below(5) < 2);
        if count == 0 {
            return;
        }
        let call = |n| if pause { Call::Pause(n) } else { Call::Resume(n) };
        if self.r.one_in(20) {
            return (0..count).for_each(|n| self.call(call(n)));
        }
        let n = if self.r.one_in(6) { count - 1 } else { self.r.below(count) };
        for _ in 0..self.r.of(&[1, 1, 1, 2]) {
            self.call(call(n));
        }
    }

    fn filling(&mut self, style: Style) {
        let campaigns = match self.r.below(10) {
            _ if style == Style::Rich => self.r.within(1, 3),
            0 => 0,
            1 | 2 => MOST_CAMPAIGNS,
            3 => self.r.within(1, 2),
            _ => self.r.within(1, 20),
        };
        self.refusals(3);
        // some of them are refused, so that a full plan may take more lines
        for tried in 0..2 * campaigns {
            if self.state.count() == campaigns || campaigns < MOST_CAMPAIGNS && tried == campaigns {
                break;
            }
            let open = campaigns.saturating_sub(self.state.count()).max(1);
            let (price, budget) = self.terms(style, open);
            self.call(Call::Campaign(price, budget));
            if self.r.one_in(6) {
                self.refusals(2);
            }
        }
        self.refusals(3);
    }

    fn running(&mut self, full: bool) {
        let views = match self.r.below(8) {
            // and one more, which is refused
            _ if full => MOST_VIEWS + 1,
            0 => 0,
            1 => self.r.within(1, 900),
            _ => self.r.within(1, 120),
        };
        // a day that interests nobody
        let idle = self.r.one_in(12);
        // in how many views a campaign is paused or resumed once, if at all
        let marks = self.r.of(&[None, Some(3), Some(10), Some(40)]);
        self.refusals(3);
        for _ in 0..views {
            if marks.is_some_and(|n| self.r.one_in(n)) {
                self.mark();
            }
            let set = if idle { 0 } else { self.names() };
            self.call(Call::View(set));
            if self.r.one_in(40) {
                self.refusals(2);
            }
        }
        if marks.is_some() {
            self.mark();
        }
        self.refusals(4);
    }
}

/// Some days after one another, as one input.
pub fn input(seed: u64) -> Vec<u8> {
    let mut m = Maker { r: Random(seed), state: State::blank(), out: vec![] };
    if m.r.one_in(60) {
        m.refusals(3);
        return m.out;
    }
    for _ in 0..m.r.within(1, 4) {
        m.refusals(6);
        let style = m.r.of(&STYLES);
        let (depth, width) = if style == Style::Rich { m.r.of(&[(32, 2), (8, 16)]) } else { m.plan() };
        m.call(Call::Plan(depth, width));
        m.filling(style);
        if m.r.one_in(30) {
            break;
        }
        m.call(Call::Start);
        let full = m.r.one_in(if style == Style::Rich { 8 } else { 20 });
        m.running(full);
        // a day that stays open has the next one's lines refused
        if !m.r.one_in(12) {
            m.call(Call::Close);
        }
    }
    if m.state.phase == Phase::Closed {
        m.refusals(6);
    }
    if m.r.one_in(4) {
        m.out.pop();
    }
    m.out
}
