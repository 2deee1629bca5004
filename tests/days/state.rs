//! The day of documents 01 and 02: its record, its calls and the questions at the door. The generator aims by it, the
//! model answers by it, and what was seen is told by it.

pub const MOST_CAMPAIGNS: u64 = 64;
pub const MOST_VIEWS: u64 = 4_096;
pub const MOST_PRICE: u64 = 1_000_000;
pub const MOST_BUDGET: u64 = 2_000_000_000;

#[derive(Clone, Copy, PartialEq, Eq)]
pub enum Phase {
    /// Closed, and no day was opened yet.
    Blank,
    Filling,
    Running,
    Closed,
}

impl Phase {
    pub const ALL: [Phase; 4] = [Phase::Blank, Phase::Filling, Phase::Running, Phase::Closed];

    pub fn name(self) -> &'static str {
        match self {
            Phase::Blank => "blank",
            Phase::Filling => "filling",
            Phase::Running => "running",
            Phase::Closed => "closed",
        }
    }
}

/// A line that is an input form.
#[derive(Clone, Copy)]
pub enum Call {
    Plan(u64, u64),
    Campaign(u64, u64),
    Start,
    View(u64),
    Pause(u64),
    Resume(u64),
    Close,
}

impl Call {
    pub fn word(self) -> &'static str {
        match self {
            Call::Plan(..) => "plan",
            Call::Campaign(..) => "campaign",
            Call::Start => "start",
            Call::View(_) => "view",
            Call::Pause(_) => "pause",
            Call::Resume(_) => "resume",
            Call::Close => "close",
        }
    }

    pub fn line(self) -> String {
        match self {
            Call::Plan(depth, width) => format!("(plan (depth {depth}) (width {width}))"),
            Call::Campaign(price, budget) => format!("(campaign (price {price}) (budget {budget}))"),
            Call::View(set) => {
                let names: String = members(set).map(|i| format!(" {i}")).collect();
                format!("(view{names})")
            }
            Call::Pause(n) | Call::Resume(n) => format!("({} {n})", self.word()),
            Call::Start | Call::Close => format!("({})", self.word()),
        }
    }
}

pub fn members(set: u64) -> impl Iterator<Item = usize> {
    (0..64).filter(move |i| set >> i & 1 == 1)
}

/// How many of these views name a campaign.
pub fn naming(views: &[u64], i: usize) -> u64 {
    views.iter().filter(|set| **set >> i & 1 == 1).count() as u64
}

pub fn set_of(names: impl Iterator<Item = usize>) -> u64 {
    names.fold(0, |set, i| set | 1 << i)
}

/// The greatest depth up to 32 that a width allows.
pub fn deepest(width: u64) -> u64 {
    (1..=32).take_while(|k| u128::from(width).pow(*k) <= 1 << 32).last().map_or(1, u64::from)
}

#[derive(Default)]
pub struct Campaign {
    pub price: u64,
    pub budget: u64,
    pub plays: u64,
    pub turns: u64,
    pub age: u64,
    pub paused: bool,
}

impl Campaign {
    pub fn can_pay(&self) -> bool {
        self.plays < self.budget / self.price
    }
}

pub struct State {
    pub phase: Phase,
    pub depth: u64,
    pub width: u64,
    pub campaigns: Vec<Campaign>,
    /// The accepted views, each as the set of its names that were not paused then.
    pub views: Vec<u64>,
}

impl State {
    pub fn blank() -> State {
        State { phase: Phase::Blank, depth: 1, width: 1, campaigns: vec![], views: vec![] }
    }

    pub fn count(&self) -> u64 {
        self.campaigns.len() as u64
    }

    pub fn accepted(&self) -> u64 {
        self.views.len() as u64
    }

    pub fn paused(&self) -> u64 {
        set_of((0..self.campaigns.len()).filter(|i| self.campaigns[*i].paused))
    }

    /// The names of a view but for those of paused campaigns.
    pub fn unpaused(&self, set: u64) -> u64 {
        set & !self.paused()
    }

    /// How many accepted views named a campaign.
    pub fn named(&self, i: usize) -> u64 {
        naming(&self.views, i)
    }

    pub fn budgets(&self) -> u64 {
        self.campaigns.iter().map(|c| c.budget).sum()
    }

    /// The numbers of all questions that this call fails, in their order: the first is the answer.
    pub fn failed(&self, call: Call) -> Vec<u64> {
        let running = self.phase == Phase::Running;
        let filling = self.phase == Phase::Filling;
        let questions = match call {
            Call::Plan(depth, width) => vec![
                (2, !running && !filling),
                (3, (1..=32).contains(&depth)),
                (4, (1..=16).contains(&width)),
                (5, width <= 1 || depth <= deepest(width)),
            ],
            Call::Campaign(price, budget) => vec![
                (6, filling),
                (7, self.count() < MOST_CAMPAIGNS),
                (8, (1..=MOST_PRICE).contains(&price)),
                (9, price <= budget && budget <= MOST_BUDGET),
                (10, self.budgets() + budget <= MOST_BUDGET),
            ],
            Call::Start => vec![(6, filling)],
            Call::View(set) => vec![
                (11, running),
                (12, self.accepted() < MOST_VIEWS),
                (13, set.checked_shr(self.campaigns.len() as u32).unwrap_or(0) == 0),
                (14, u64::from(self.unpaused(set).count_ones()) <= self.width),
            ],
            Call::Pause(n) | Call::Resume(n) => vec![(11, running), (15, n < self.count())],
            Call::Close => vec![(11, running)],
        };
        questions.into_iter().filter(|q| !q.1).map(|q| q.0).collect()
    }
}
