//! Lines that are refused: by a question of the phase that the day is in, as too long, or as no form.

use crate::random::Random;
use crate::state::{deepest, members, set_of, Call, Phase, State};
use crate::state::{MOST_BUDGET, MOST_CAMPAIGNS, MOST_PRICE, MOST_VIEWS};

/// Numbers that lines may have and no plan or campaign takes: both sides of 32 bits, 2 in 32 bits, the greatest.
pub const WIDE: [u64; 4] = [4_294_967_295, 4_294_967_296, 4_294_967_298, 999_999_999_999];

const EDGES: [u64; 24] = [
    0,
    1,
    2,
    3,
    9,
    10,
    15,
    16,
    17,
    31,
    32,
    33,
    63,
    64,
    MOST_PRICE,
    MOST_PRICE + 1,
    MOST_BUDGET,
    MOST_BUDGET + 1,
    4_096,
    99_999_999_999,
    WIDE[0],
    WIDE[1],
    WIDE[2],
    WIDE[3],
];

/// A call that one of the questions which the phase leaves refuses.
pub fn refused_call(r: &mut Random, state: &State) -> Call {
    match (state.phase, r.below(12)) {
        (_, 10 | 11) => bad_mark(r, state),
        (Phase::Blank | Phase::Closed, 0..=4) => bad_plan(r),
        (Phase::Filling | Phase::Running, 0 | 1) => any_plan(r),
        (Phase::Filling, 2..=6) => bad_campaign(r, state),
        (Phase::Running, 2..=6) => bad_view(r, state),
        (Phase::Running, 7) => Call::Start,
        (Phase::Running, _) => any_campaign(r),
        (Phase::Filling, 7) => Call::Close,
        (Phase::Filling, _) => any_view(r),
        (_, 5 | 6) => any_campaign(r),
        (_, 7) => Call::Start,
        (_, 8) => Call::Close,
        _ => any_view(r),
    }
}

fn any_plan(r: &mut Random) -> Call {
    if r.one_in(2) {
        Call::Plan(r.of(&EDGES), r.of(&EDGES))
    } else {
        bad_plan(r)
    }
}

/// A wide number, or one of these.
fn over(r: &mut Random, others: &[u64]) -> u64 {
    if r.one_in(2) {
        r.of(&WIDE)
    } else {
        r.of(others)
    }
}

fn bad_plan(r: &mut Random) -> Call {
    match r.below(4) {
        0 => Call::Plan(over(r, &[0, 33, 34, 64]), r.of(&EDGES)),
        1 => Call::Plan(r.within(1, 32), over(r, &[0, 17, 18, 64])),
        2 => {
            let width = r.within(3, 16);
            Call::Plan(r.within(deepest(width) + 1, 32), width)
        }
        _ => {
            let width = r.within(1, 16);
            Call::Plan(deepest(width) + 1, width)
        }
    }
}

fn any_campaign(r: &mut Random) -> Call {
    Call::Campaign(r.of(&EDGES), r.of(&EDGES))
}

fn bad_campaign(r: &mut Random, state: &State) -> Call {
    let left = MOST_BUDGET - state.budgets();
    if state.count() == MOST_CAMPAIGNS {
        return if r.one_in(2) { Call::Campaign(1, 1) } else { any_campaign(r) };
    }
    match r.below(4) {
        0 => Call::Campaign(over(r, &[0, MOST_PRICE + 1]), r.of(&EDGES)),
        1 => {
            let price = r.within(1, MOST_PRICE);
            // the last two are the price in 32 bits, and what makes the sum 1
            let wrapping = [WIDE[1] + price, WIDE[1] - state.budgets() + 1];
            Call::Campaign(price, over(r, &[0, price - 1, MOST_BUDGET + 1, wrapping[0], wrapping[1]]))
        }
        // with no campaign yet, only the budget's own limit is left to break
        2 => Call::Campaign((left + 1).min(MOST_PRICE), left + 1),
        _ => Call::Campaign(1, r.within(left + 1, MOST_BUDGET + 1)),
    }
}

fn any_view(r: &mut Random) -> Call {
    Call::View(match r.below(4) {
        0 => 0,
        1 => u64::MAX,
        2 => 1 << r.below(64),
        _ => r.next() & r.next(),
    })
}

/// A pause or a resume; of a number that the plan lacks, where the phase leaves that question.
fn bad_mark(r: &mut Random, state: &State) -> Call {
    let least = if state.phase == Phase::Running { state.count() } else { 0 };
    if least == MOST_CAMPAIGNS {
        return Call::Start;
    }
    let n = if r.one_in(2) { r.within(least, MOST_CAMPAIGNS - 1) } else { r.of(&[least, MOST_CAMPAIGNS - 1]) };
    if r.one_in(2) {
        Call::Pause(n)
    } else {
        Call::Resume(n)
    }
}

fn bad_view(r: &mut Random, state: &State) -> Call {
    let (count, width) = (state.count(), state.width as usize);
    if state.accepted() == MOST_VIEWS {
        return if r.one_in(2) { Call::View(r.below(2)) } else { any_view(r) };
    }
    let beyond = |i: u64| if count < MOST_CAMPAIGNS { 1 << (count + i % (64 - count)) } else { 0 };
    let planned = set_of(0..count as usize);
    let (unpaused, paused) = (state.unpaused(planned), state.paused() & r.next());
    let more = if members(unpaused).count() > width { set_of(members(unpaused).take(width + 1)) } else { 0 };
    let set = match r.below(6) {
        0 => more,
        1 => beyond(0),
        2 if count < MOST_CAMPAIGNS => beyond(r.below(64)) | u64::from(count > 0),
        3 => beyond(0) | more,
        4 if more > 0 => more | paused,
        _ if count < MOST_CAMPAIGNS => 1 << 63 | paused,
        _ if more > 0 => u64::MAX,
        _ => 0,
    };
    // a view that names none is taken
    match if set == 0 { beyond(0) | more } else { set } {
        0 => Call::Start,
        set => Call::View(set),
    }
}

/// A line of more than 200 bytes.
pub fn long(r: &mut Random) -> Vec<u8> {
    let length = match r.below(6) {
        0 | 1 => 201,
        2 => 202,
        3 => r.within(203, 70_000),
        _ => r.within(203, 1_000),
    } as usize;
    // a form at its front or repeated is not read
    match r.below(3) {
        0 => vec![r.of(b"x(0 \0\xff"); length],
        1 => b"(start)".iter().copied().chain(std::iter::repeat(b' ')).take(length).collect(),
        _ => b"(close)(view 0 1) ".iter().copied().cycle().take(length).collect(),
    }
}

fn form(r: &mut Random) -> String {
    match r.below(13) {
        0 => "(ok)".into(),
        1 => "(nobody)".into(),
        2 => format!("(play {} (paid {}))", r.below(65), r.of(&EDGES)),
        3 => format!("(refused {})", r.below(20)),
        4 => format!("(closed (takings {}) (claim {}) (full {}))", r.of(&EDGES), r.next(), u64::MAX),
        5 => format!("(tally {} (plays {}) (turns 2) (age 0) (named {}))", r.below(65), r.of(&EDGES), r.of(&EDGES)),
        6 => Call::Plan(r.of(&EDGES), r.of(&EDGES)).line(),
        7 => any_campaign(r).line(),
        8 => any_view(r).line(),
        9 => Call::Start.line(),
        10 => Call::Pause(r.below(64)).line(),
        11 => Call::Resume(r.below(64)).line(),
        _ => Call::Close.line(),
    }
}

/// A form with one byte changed, left out or put in. No digit is put in, so that no other input form comes of it.
fn damaged(r: &mut Random) -> Vec<u8> {
    let mut bytes = form(r).into_bytes();
    let at = r.below(bytes.len() as u64) as usize;
    let byte = r.of(b" ()-+A/:xyz.\t\r\0\x7f\x80\xc8\xff");
    match r.below(4) {
        0 => bytes.insert(at, byte),
        1 => bytes.push(byte),
        2 if !bytes[at].is_ascii_digit() => {
            bytes.remove(at);
        }
        _ if bytes[at] != byte => bytes[at] = byte,
        _ => bytes[at] = b'!',
    }
    bytes
}

/// Every slot of every form, as what stands before its number and behind it.
pub const SLOTS: [(&str, &str); 19] = [
    ("(plan (depth ", ") (width 1))"),
    ("(plan (depth 1) (width ", "))"),
    ("(campaign (price ", ") (budget 1))"),
    ("(campaign (price 1) (budget ", "))"),
    ("(view ", ")"),
    ("(view 0 ", ")"),
    ("(pause ", ")"),
    ("(resume ", ")"),
    ("(play ", " (paid 1))"),
    ("(play 1 (paid ", "))"),
    ("(refused ", ")"),
    ("(closed (takings ", ") (claim 1) (full 1))"),
    ("(closed (takings 1) (claim ", ") (full 1))"),
    ("(closed (takings 1) (claim 1) (full ", "))"),
    ("(tally ", " (plays 1) (turns 1) (age 1) (named 1))"),
    ("(tally 1 (plays ", ") (turns 1) (age 1) (named 1))"),
    ("(tally 1 (plays 1) (turns ", ") (age 1) (named 1))"),
    ("(tally 1 (plays 1) (turns 1) (age ", ") (named 1))"),
    ("(tally 1 (plays 1) (turns 1) (age 1) (named ", "))"),
];

/// How many of the slots are those of a plan or a campaign.
pub const INPUT_SLOTS: usize = 4;

/// Numerals that are none: the least of 13 digits, the least beyond 64 bits, 1 in 64 bits; 1 behind a zero, behind 11
/// and behind 12.
pub const NO_NUMERALS: [&str; 6] =
    ["1000000000000", "18446744073709551616", "18446744073709551617", "01", "000000000001", "0000000000001"];

/// A line with a number that its slot does not take.
fn no_number(r: &mut Random) -> String {
    let at = r.below(SLOTS.len() as u64) as usize;
    let (before, behind) = SLOTS[at];
    let number = match r.below(4) {
        0 => r.of(&NO_NUMBERS).to_string(),
        // no campaign has such a number, and an output line is none that the program takes
        1 if at >= INPUT_SLOTS => r.of(&WIDE).to_string(),
        _ => r.of(&NO_NUMERALS).to_string(),
    };
    format!("{before}{number}{behind}")
}

const NO_NUMBERS: [&str; 10] = ["9999999999999", "184467440737095516161", "00", "", "-1", "+1", "1.0", " 1", "1 ", "x"];

const NO_VIEWS: [&str; 9] = [
    "(view 0 0)",
    "(view 1 0)",
    "(view 64)",
    "(view 63 64)",
    "(view 00)",
    "(view 0 01)",
    "(view  0)",
    "(view 0 )",
    "(view 4294967296)",
];

const NO_MARKS: [&str; 10] = [
    "(pause 64)",
    "(resume 64)",
    "(pause)",
    "(resume)",
    "(pause 00)",
    "(resume 0 1)",
    "(pause  0)",
    "(resume 0 )",
    "(paused 0)",
    "(resumed 0)",
];

const NO_FORMS: [&str; 12] = [
    "(START)",
    " (start)",
    "(start) ",
    "(start)\r",
    "start",
    "()",
    "(start",
    "(start)(start)",
    "(plan (width 2) (depth 2))",
    "(campaign (price 5))",
    "(tally 0)",
    "(close )",
];

/// A line of at most 200 bytes that is no input form. `damaged` may by rare chance give an input form again, as where a
/// view loses a space.
pub fn no_form(r: &mut Random) -> Vec<u8> {
    match r.below(13) {
        0 => vec![],
        1 => vec![r.of(b"x( 0)\0\xff"); r.of(&[1, 199, 200])],
        2..=5 => no_number(r).into_bytes(),
        6 => r.of(&NO_VIEWS).into(),
        7 => r.of(&NO_FORMS).into(),
        // an input form padded to the greatest length is none
        8 => format!("{:200}", Call::Start.line()).into_bytes(),
        9 => {
            let line = form(r);
            if is_output(&line) {
                line.into_bytes()
            } else {
                b"(ok)".to_vec()
            }
        }
        10 => r.of(&NO_MARKS).into(),
        _ => damaged(r),
    }
}

fn is_output(line: &str) -> bool {
    ["(ok", "(nobody", "(play", "(refused", "(closed", "(tally"].iter().any(|w| line.starts_with(w))
}
