//! Days as lines of text, made up.

use crate::random::Random;

/// Depths and widths that open.
const PLANS: [(u64, u64); 8] = [(1, 1), (2, 2), (32, 2), (20, 3), (4, 4), (8, 16), (1, 16), (3, 8)];

fn view(random: &mut Random, n: u64, width: u64) -> String {
    let set = random.set(n, width);
    let names = (0..64).filter(|i| set >> i & 1 == 1).map(|i| format!(" {i}"));
    format!("(view{})", names.collect::<String>())
}

/// A campaign is paused or resumed, now and then one that the plan lacks.
fn mark(random: &mut Random, n: u64) -> String {
    let word = random.pick(&["pause", "resume"]);
    format!("({word} {})", random.below((n + 1).min(64)))
}

/// A price and a budget that n campaigns can have.
fn campaign(random: &mut Random, n: u64) -> String {
    let share = 2_000_000_000 / n.max(1);
    let price = random.spread(1, share.min(1_000_000));
    let budget = price * random.spread(1, share / price);
    format!("(campaign (price {price}) (budget {budget}))")
}

/// A day that may stop anywhere, with lines that are refused among its own; its last line need not end.
pub fn day(random: &mut Random) -> Vec<u8> {
    let n = random.pick(&[0, 1, 2, 3, 9, 10, 11, 30, 63, 64]);
    let (depth, width) = random.pick(&PLANS);
    let mut lines = vec![format!("(plan (depth {depth}) (width {width}))")];
    for _ in 0..n {
        lines.push(campaign(random, n));
    }
    if !random.one_in(8) {
        lines.push("(start)".into());
        for _ in 0..random.below(400) {
            lines.push(match random.below(40) {
                0 => "(view 64)".into(),
                1 => "nonsense".into(),
                2 => "(plan (depth 2) (width 2))".into(),
                3..=8 => mark(random, n),
                _ if n == 0 => "(start)".into(),
                _ => view(random, n, width),
            });
        }
    }
    if random.one_in(2) {
        lines.push("(close)".into());
    }
    let mut bytes = lines.join("\n").into_bytes();
    if random.one_in(2) {
        bytes.push(b'\n');
    }
    bytes
}
