//! What a comparison has seen: refusals by phase, both sides of each limit, and what can happen in a view or to a day.
//! The lines are walked with the model's state, whose answers both programs gave. Everything in `wanted` must be seen.

use crate::model;
use crate::noise::{INPUT_SLOTS, NO_NUMERALS, SLOTS, WIDE};
use crate::state::{deepest, members, Call, Phase, State};
use crate::state::{MOST_BUDGET, MOST_CAMPAIGNS, MOST_PRICE, MOST_VIEWS};
use std::collections::BTreeMap;

/// Which lines get which refusal in which phases. 1 and 18 answer no line: the program's state stays sound, and its
/// buffer is long enough.
fn refusals() -> Vec<(&'static str, u64, Vec<Phase>)> {
    use Phase::{Blank, Closed, Filling, Running};
    vec![
        ("plan", 2, vec![Filling, Running]),
        ("plan", 3, vec![Blank, Closed]),
        ("plan", 4, vec![Blank, Closed]),
        ("plan", 5, vec![Blank, Closed]),
        ("campaign", 6, vec![Blank, Running, Closed]),
        ("start", 6, vec![Blank, Running, Closed]),
        ("campaign", 7, vec![Filling]),
        ("campaign", 8, vec![Filling]),
        ("campaign", 9, vec![Filling]),
        ("campaign", 10, vec![Filling]),
        ("view", 11, vec![Blank, Filling, Closed]),
        ("close", 11, vec![Blank, Filling, Closed]),
        ("view", 12, vec![Running]),
        ("view", 13, vec![Running]),
        ("view", 14, vec![Running]),
        ("pause", 11, vec![Blank, Filling, Closed]),
        ("resume", 11, vec![Blank, Filling, Closed]),
        ("pause", 15, vec![Running]),
        ("resume", 15, vec![Running]),
        ("line", 16, Phase::ALL.to_vec()),
        ("line", 17, Phase::ALL.to_vec()),
    ]
}

/// A question that fails, and a later one that fails too: the first is answered.
const ORDERS: [(&str, &[u64]); 5] = [
    ("plan", &[2, 3, 4, 5]),
    ("campaign", &[6, 7, 8, 9, 10]),
    ("view", &[11, 12, 13, 14]),
    ("pause", &[11, 15]),
    ("resume", &[11, 15]),
];

const EVENTS: [&str; 70] = [
    "depth 1 taken",
    "depth 32 taken",
    "depth 0 refused",
    "depth 33 refused",
    "width 1 taken",
    "width 16 taken",
    "width 0 refused",
    "width 17 refused",
    "price 1 taken",
    "price 1000000 taken",
    "price 0 refused",
    "price 1000001 refused",
    "budget of the price taken",
    "budget below the price refused",
    "budget 2000000000 taken",
    "budget 2000000001 refused",
    "budgets of 2000000000 together taken",
    "budgets of 2000000001 together refused",
    "day of no campaigns started",
    "campaign 64 taken",
    "campaign 65 refused",
    "view 4096 taken",
    "view 4097 refused",
    "no name taken",
    "no name taken in a day of no campaigns",
    "no name taken beside an age",
    "view 4096, none of them naming any, taken",
    "view 4097, none of them naming any, refused",
    "one name taken",
    "names as the width taken",
    "one name over the width refused",
    "64 names refused",
    "last campaign named",
    "next number refused",
    "name 63 taken",
    "name 63 refused",
    "line of 199 bytes",
    "line of 200 bytes",
    "line of 201 bytes",
    "line of 202 bytes",
    "line of over 65536 bytes",
    "name 64 refused",
    "equal names refused",
    "falling names refused",
    "empty line",
    "byte 13 refused",
    "byte 0 refused",
    "byte over 127 refused",
    "play",
    "nobody",
    "equal scores of one price",
    "equal scores of other prices",
    "older before dearer",
    "older than 4 before dearer",
    "a higher number plays",
    "spent one named beside a player",
    "last play",
    "spent with cents left",
    "turn ended by age",
    "turn ended by age at depth 1",
    "play with a score of 0",
    "campaign 63 plays",
    "16 named",
    "score over 2^51",
    "closed with no campaign",
    "closed with 64 campaigns",
    "closed with takings 0",
    "closed with takings 2000000000",
    "second day",
    "last line without byte 10",
];

/// What pauses bring about.
const MARKS: [&str; 36] = [
    "pause 63 taken",
    "pause 63 refused",
    "pause of the last campaign taken",
    "pause of the next number refused",
    "resume 63 taken",
    "resume 63 refused",
    "resume of the last campaign taken",
    "resume of the next number refused",
    "(pause 64) refused 17",
    "(resume 64) refused 17",
    "(pause) refused 17",
    "(resume) refused 17",
    "paused",
    "paused twice",
    "resumed",
    "resumed twice",
    "spent one paused",
    "one with an age paused",
    "one with an age resumed",
    "the last unpaused one paused",
    "paused after view 4096",
    "resumed after view 4096",
    "all names paused: taken",
    "view 4096, all names paused, taken",
    "names over the width, but for paused ones: taken",
    "64 names, but for paused ones within the width: taken",
    "names as the width beside a paused one: taken",
    "names over the width beside a paused one: refused",
    "number that the plan lacks beside a paused one: refused",
    "paused one that is spent named",
    "paused one that would play named",
    "paused one whose turn would end named",
    "resumed one plays",
    "closed with a paused one",
    "closed below the floor, were paused names counted",
    "number paused at the last closing plays",
];

const OUTPUT_FORMS: [&str; 6] = ["(ok)", "(nobody)", "(play ", "(refused ", "(closed ", "(tally "];

fn refusal(word: &str, number: u64, phase: Phase) -> String {
    format!("{word} refused {number}, {}", phase.name())
}

fn order(word: &str, first: u64, later: u64) -> String {
    format!("{word} refused {first} and not {later}")
}

/// A wide number in a slot of a plan or a campaign, and the question that refuses it.
fn wide(what: &str, n: u64, number: u64) -> String {
    format!("{what} {n} refused {number}")
}

/// Lines that are no form for one number.
fn no_numbers() -> impl Iterator<Item = String> {
    let wide = || WIDE.into_iter().map(|n| n.to_string());
    let numerals = move |at| wide().filter(move |_| at >= INPUT_SLOTS).chain(NO_NUMERALS.map(String::from));
    let line = |(at, n): (usize, String)| format!("{}{n}{} refused 17", SLOTS[at].0, SLOTS[at].1);
    (0..SLOTS.len()).flat_map(move |at| numerals(at).map(move |n| (at, n))).map(line)
}

fn deep(width: u64, taken: bool) -> String {
    format!("depth {} width {width}: {}", deepest(width) + u64::from(!taken), if taken { "taken" } else { "refused" })
}

/// All that must be seen.
fn wanted() -> Vec<String> {
    let mut all: Vec<String> = EVENTS.iter().chain(&MARKS).map(|e| e.to_string()).collect();
    for (word, number, phases) in refusals() {
        all.extend(phases.into_iter().map(|phase| refusal(word, number, phase)));
    }
    for (word, numbers) in ORDERS {
        for (i, first) in numbers.iter().enumerate() {
            all.extend(numbers[i + 1..].iter().map(|later| order(word, *first, *later)));
        }
    }
    for width in 1..=16 {
        all.extend([deep(width, true), deep(width, false)]);
    }
    for (what, number) in [("depth", 3), ("width", 4), ("price", 8), ("budget", 9)] {
        all.extend(WIDE.map(|n| wide(what, n, number)));
    }
    all.extend(no_numbers());
    all.extend(OUTPUT_FORMS.map(|form| format!("{form} refused")));
    all.extend(Phase::ALL.map(|phase| format!("input ends {}", phase.name())));
    all
}

pub struct Seen {
    counts: BTreeMap<String, u64>,
    /// Campaigns of the day that were resumed.
    resumed: u64,
    /// Numbers that were paused when the day before was closed.
    before: u64,
    /// The day's accepted views as they were handed in.
    handed: Vec<u64>,
}

impl Seen {
    pub fn new() -> Seen {
        Seen { counts: wanted().into_iter().map(|name| (name, 0)).collect(), resumed: 0, before: 0, handed: vec![] }
    }

    fn mark(&mut self, name: impl Into<String>) {
        *self.counts.entry(name.into()).or_default() += 1;
    }

    fn mark_if(&mut self, seen: bool, name: &str) {
        if seen {
            self.mark(name);
        }
    }

    /// What was wanted and not seen.
    pub fn unseen(&self) -> Vec<String> {
        self.counts.iter().filter(|c| *c.1 == 0).map(|c| format!("not seen: {}", c.0)).collect()
    }

    /// What was seen and cannot be, by the documents.
    pub fn wrong(&self) -> Vec<String> {
        let known = wanted();
        let unknown = self.counts.keys().filter(|name| !known.contains(name));
        unknown.map(|name| format!("cannot be: {name}")).collect()
    }

    /// How often each was seen, one to a line.
    pub fn report(&self) -> String {
        self.counts.iter().map(|(name, n)| format!("{n:9}  {name}\n")).collect()
    }

    pub fn len(&self) -> usize {
        self.counts.len()
    }

    pub fn walk(&mut self, input: &[u8]) {
        let mut state = State::blank();
        (self.resumed, self.before, self.handed) = (0, 0, vec![]);
        self.mark_if(input.last().is_some_and(|b| *b != 10), "last line without byte 10");
        for line in model::lines(input) {
            self.line(&state, line);
            state.answer(line);
        }
        self.mark(format!("input ends {}", state.phase.name()));
    }

    /// A line, and the state before it.
    fn line(&mut self, state: &State, line: &[u8]) {
        let call = match model::read(line) {
            Ok(call) => call,
            Err(number) => {
                self.mark(refusal("line", number, state.phase));
                return self.no_form(line);
            }
        };
        let failed = state.failed(call);
        self.limits(state, call, failed.first().copied().unwrap_or(0));
        match failed.split_first() {
            None => self.accepted(state, call),
            Some((first, later)) => {
                self.mark(refusal(call.word(), *first, state.phase));
                later.iter().for_each(|number| self.mark(order(call.word(), *first, *number)));
            }
        }
    }

    /// A line that is no input form.
    fn no_form(&mut self, line: &[u8]) {
        let text = String::from_utf8_lossy(line);
        let length = line.len();
        for n in [199, 200, 201, 202] {
            self.mark_if(length == n, &format!("line of {n} bytes"));
        }
        self.mark_if(length > 65_536, "line of over 65536 bytes");
        self.mark_if(length == 0, "empty line");
        if length > 200 {
            return;
        }
        for form in OUTPUT_FORMS {
            if text.starts_with(form) {
                self.mark(format!("{form} refused"));
            }
        }
        if let Some(count) = self.counts.get_mut(&format!("{text} refused 17")) {
            *count += 1;
        }
        self.mark_if(text == "(view 64)", "name 64 refused");
        self.mark_if(text == "(view 0 0)", "equal names refused");
        self.mark_if(text == "(view 1 0)", "falling names refused");
        self.mark_if(line.ends_with(b")\r"), "byte 13 refused");
        self.mark_if(line.contains(&0), "byte 0 refused");
        self.mark_if(line.iter().any(|b| *b > 127), "byte over 127 refused");
    }

    /// Both sides of each limit, at the line that touches it; the number is 0 where the call is accepted.
    fn limits(&mut self, state: &State, call: Call, number: u64) {
        match call {
            Call::Plan(depth, width) => self.plan_limits(depth, width, number),
            Call::Campaign(price, budget) => self.campaign_limits(state, price, budget, number),
            Call::Start => self.mark_if(number == 0 && state.count() == 0, "day of no campaigns started"),
            Call::View(set) => self.view_limits(state, set, number),
            Call::Pause(n) | Call::Resume(n) => self.mark_limits(state, call.word(), n, number),
            Call::Close => {}
        }
    }

    fn plan_limits(&mut self, depth: u64, width: u64, number: u64) {
        let taken = number == 0;
        for (what, n, top, refusal) in [("depth", depth, 32, 3), ("width", width, 16, 4)] {
            self.mark_if(taken && n == 1, &format!("{what} 1 taken"));
            self.mark_if(taken && n == top, &format!("{what} {top} taken"));
            self.mark_if(number == refusal && n == 0, &format!("{what} 0 refused"));
            self.mark_if(number == refusal && n == top + 1, &format!("{what} {} refused", top + 1));
            self.mark_if(number == refusal && WIDE.contains(&n), &wide(what, n, refusal));
        }
        if (1..=16).contains(&width) && depth == deepest(width) + u64::from(!taken) && number != 2 {
            self.mark(deep(width, taken));
        }
    }

    fn campaign_limits(&mut self, state: &State, price: u64, budget: u64, number: u64) {
        let (taken, count) = (number == 0, state.count());
        self.mark_if(taken && price == 1, "price 1 taken");
        self.mark_if(taken && price == MOST_PRICE, "price 1000000 taken");
        self.mark_if(number == 8 && price == 0, "price 0 refused");
        self.mark_if(number == 8 && price == MOST_PRICE + 1, "price 1000001 refused");
        self.mark_if(taken && budget == price, "budget of the price taken");
        self.mark_if(number == 9 && budget + 1 == price, "budget below the price refused");
        self.mark_if(taken && budget == MOST_BUDGET, "budget 2000000000 taken");
        self.mark_if(number == 9 && budget == MOST_BUDGET + 1, "budget 2000000001 refused");
        for (what, n, refusal) in [("price", price, 8), ("budget", budget, 9)] {
            self.mark_if(number == refusal && WIDE.contains(&n), &wide(what, n, refusal));
        }
        let together = state.budgets() + budget;
        self.mark_if(taken && count > 0 && together == MOST_BUDGET, "budgets of 2000000000 together taken");
        self.mark_if(number == 10 && together == MOST_BUDGET + 1, "budgets of 2000000001 together refused");
        self.mark_if(taken && count + 1 == MOST_CAMPAIGNS, "campaign 64 taken");
        self.mark_if(number == 7 && budget == price && price == 1, "campaign 65 refused");
    }

    fn view_limits(&mut self, state: &State, set: u64, number: u64) {
        let (taken, count) = (number == 0, state.count());
        let names = u64::from(state.unpaused(set).count_ones());
        let top = 64 - u64::from(set.leading_zeros());
        self.mark_if(taken && state.accepted() + 1 == MOST_VIEWS, "view 4096 taken");
        self.mark_if(number == 12 && state.failed(Call::View(set)).len() == 1, "view 4097 refused");
        self.mark_if(number == 14 && names == state.width + 1, "one name over the width refused");
        self.mark_if(number == 14 && names == 64, "64 names refused");
        self.mark_if(taken && names == 1, "one name taken");
        self.mark_if(taken && names == state.width, "names as the width taken");
        self.mark_if(taken && names == 16, "16 named");
        self.mark_if(taken && top == count, "last campaign named");
        self.mark_if(number == 13 && top == count + 1, "next number refused");
        self.mark_if(taken && top == 64, "name 63 taken");
        self.mark_if(number == 13 && top == 64, "name 63 refused");
        if set == 0 {
            self.no_name(state, number);
        }
        if set != state.unpaused(set) {
            self.paused_names(state, set, number);
        }
    }

    fn mark_limits(&mut self, state: &State, word: &str, n: u64, number: u64) {
        let (taken, missing) = (number == 0, number == 15);
        self.mark_if(taken && n == 63, &format!("{word} 63 taken"));
        self.mark_if(missing && n == 63, &format!("{word} 63 refused"));
        self.mark_if(taken && n + 1 == state.count(), &format!("{word} of the last campaign taken"));
        self.mark_if(missing && n == state.count(), &format!("{word} of the next number refused"));
    }

    /// A view that names paused campaigns.
    fn paused_names(&mut self, state: &State, set: u64, number: u64) {
        let (taken, unpaused, width) = (number == 0, state.unpaused(set), state.width);
        let (all, names) = (u64::from(set.count_ones()), u64::from(unpaused.count_ones()));
        self.mark_if(number == 13, "number that the plan lacks beside a paused one: refused");
        self.mark_if(number == 14 && names == width + 1, "names over the width beside a paused one: refused");
        if !taken {
            return;
        }
        self.mark_if(names == 0, "all names paused: taken");
        let last = state.accepted() + 1 == MOST_VIEWS;
        self.mark_if(names == 0 && last, "view 4096, all names paused, taken");
        self.mark_if(all > width, "names over the width, but for paused ones: taken");
        self.mark_if(all == 64, "64 names, but for paused ones within the width: taken");
        self.mark_if(names == width, "names as the width beside a paused one: taken");
        let hidden = || members(set & !unpaused).map(|i| &state.campaigns[i]);
        self.mark_if(hidden().any(|c| !c.can_pay()), "paused one that is spent named");
        self.mark_if(state.player(set) != state.player(unpaused), "paused one that would play named");
        let ends = hidden().any(|c| c.can_pay() && c.age + 1 == state.depth);
        self.mark_if(ends && state.depth > 1, "paused one whose turn would end named");
    }

    /// A view that names none.
    fn no_name(&mut self, state: &State, number: u64) {
        let (taken, never) = (number == 0, self.handed.iter().all(|set| *set == 0));
        self.mark_if(taken, "no name taken");
        self.mark_if(taken && state.count() == 0, "no name taken in a day of no campaigns");
        self.mark_if(taken && state.campaigns.iter().any(|c| c.age > 0), "no name taken beside an age");
        let last = taken && state.accepted() + 1 == MOST_VIEWS;
        self.mark_if(last && never, "view 4096, none of them naming any, taken");
        self.mark_if(number == 12 && never, "view 4097, none of them naming any, refused");
    }

    /// What an accepted call does, told by the state before it.
    fn accepted(&mut self, state: &State, call: Call) {
        match call {
            Call::Plan(..) => {
                self.mark_if(state.phase == Phase::Closed, "second day");
                (self.resumed, self.before, self.handed) = (0, state.paused(), vec![]);
            }
            Call::View(set) => {
                self.handed.push(set);
                self.view(state, state.unpaused(set))
            }
            Call::Pause(n) => self.pause(state, n as usize),
            Call::Resume(n) => self.resume(state, n as usize),
            Call::Close => {
                let (count, takings) = (state.count(), state.takings());
                self.mark_if(count == 0, "closed with no campaign");
                self.mark_if(count == MOST_CAMPAIGNS, "closed with 64 campaigns");
                self.mark_if(takings == 0 && count > 0, "closed with takings 0");
                self.mark_if(takings == u128::from(MOST_BUDGET), "closed with takings 2000000000");
                self.mark_if(state.paused() > 0, "closed with a paused one");
                self.mark_if(!state.floor(&state.views), "closed below the floor");
                self.mark_if(!state.floor(&self.handed), "closed below the floor, were paused names counted");
            }
            Call::Campaign(..) | Call::Start => {}
        }
    }

    fn pause(&mut self, state: &State, n: usize) {
        let c = &state.campaigns[n];
        self.mark(if c.paused { "paused twice" } else { "paused" });
        self.mark_if(!c.can_pay(), "spent one paused");
        self.mark_if(state.accepted() == MOST_VIEWS, "paused after view 4096");
        self.mark_if(c.age > 0, "one with an age paused");
        let last = state.unpaused(u64::MAX >> (64 - state.count())) == 1 << n;
        self.mark_if(last, "the last unpaused one paused");
    }

    fn resume(&mut self, state: &State, n: usize) {
        let c = &state.campaigns[n];
        self.mark(if c.paused { "resumed" } else { "resumed twice" });
        self.mark_if(c.paused && c.age > 0, "one with an age resumed");
        self.mark_if(state.accepted() == MOST_VIEWS, "resumed after view 4096");
        self.resumed |= u64::from(c.paused) << n;
    }

    /// A view of these unpaused names.
    fn view(&mut self, state: &State, set: u64) {
        let (able, depth) = (state.able(set), state.depth);
        let Some(player) = state.player(set) else {
            return self.mark("nobody");
        };
        self.mark("play");
        let (score, plays) = (state.score(player), &state.campaigns[player]);
        let others = || able.iter().filter(|i| **i != player).map(|i| (*i, &state.campaigns[*i]));
        let equal =
            |one_price: bool| others().any(|(i, c)| state.score(i) == score && (c.price == plays.price) == one_price);
        self.mark_if(equal(true), "equal scores of one price");
        self.mark_if(equal(false), "equal scores of other prices");
        self.mark_if(others().any(|(_, c)| c.price > plays.price), "older before dearer");
        self.mark_if(others().any(|(i, _)| i < player), "a higher number plays");
        self.mark_if(others().any(|(_, c)| c.price > plays.price && plays.age > 4), "older than 4 before dearer");
        self.mark_if(able.len() < set.count_ones() as usize, "spent one named beside a player");
        self.mark_if(score == 0, "play with a score of 0");
        self.mark_if(score > 1 << 51, "score over 2^51");
        self.mark_if(player == 63, "campaign 63 plays");
        self.mark_if(self.resumed >> player & 1 == 1, "resumed one plays");
        self.mark_if(self.before >> player & 1 == 1, "number paused at the last closing plays");
        let last = plays.plays + 1 == plays.budget / plays.price;
        self.mark_if(last, "last play");
        self.mark_if(last && plays.budget % plays.price > 0, "spent with cents left");
        let ended = others().any(|(_, c)| c.age + 1 == depth);
        self.mark_if(ended, "turn ended by age");
        self.mark_if(ended && depth == 1, "turn ended by age at depth 1");
    }
}
