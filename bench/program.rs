//! `pumpday` against the second program and `wc -l`, on the same files in one run.
//!
//! program PUMPDAY SECOND FOLDER ROUNDS: makes the inputs in FOLDER, compares both outputs on each, then runs the three
//! in turn and takes the least processor time of each. A ratio is another's time over ours: above 1.0 we are faster.

use std::fmt::Write as _;
use std::fs::{self, File};
use std::process::{Command, Stdio};

/// Of each input, so that a run takes far longer than starting a program.
const BYTES: usize = 6_000_000;
const VIEWS: u64 = 4_096;

/// SplitMix64.
struct Random(u64);

impl Random {
    fn below(&mut self, n: u64) -> u64 {
        self.0 = self.0.wrapping_add(0x9e37_79b9_7f4a_7c15);
        let mut z = self.0;
        z = (z ^ (z >> 30)).wrapping_mul(0xbf58_476d_1ce4_e5b9);
        z = (z ^ (z >> 27)).wrapping_mul(0x94d0_49bb_1331_11eb);
        (z ^ (z >> 31)) % n
    }
}

/// A day with all its views, each naming one to d campaigns, and money for about as many plays.
fn day(r: &mut Random, campaigns: u64, width: u64, out: &mut String) {
    let _ = writeln!(out, "(plan (depth 8) (width {width}))");
    for _ in 0..campaigns {
        let price = 1 + r.below(2_000_000_000 / VIEWS / 4);
        let plays = 1 + r.below(2 * VIEWS / campaigns);
        let _ = writeln!(out, "(campaign (price {price}) (budget {}))", price * plays);
    }
    out.push_str("(start)\n");
    for _ in 0..VIEWS {
        let named = 1 + r.below(width);
        let set: u64 = (0..named).fold(0, |set, _| set | 1 << r.below(campaigns));
        out.push_str("(view");
        for i in (0..campaigns).filter(|i| set >> i & 1 == 1) {
            let _ = write!(out, " {i}");
        }
        out.push_str(")\n");
    }
    out.push_str("(close)\n");
}

fn days(campaigns: u64, width: u64) -> String {
    let mut r = Random(campaigns);
    let mut out = String::new();
    while out.len() < BYTES {
        day(&mut r, campaigns, width, &mut out);
    }
    out
}

/// A running day of 16 campaigns that is shown refused lines of every kind.
fn refusals() -> String {
    let lines = [
        "(plan (depth 2) (width 2))",
        "(plan (depth 33) (width 99))",
        "(campaign (price 5) (budget 10))",
        "(start)",
        "(view 16)",
        "(view)",
        "(view 0 1 2 3 4 5 6 7 8)",
        "(view 3 2)",
        "(view 0 0 1)",
        "(view 64)",
        "(start",
        "",
        "(START)",
        "(campaign (price 01) (budget 10))",
        "(campaign (price 1) (budget 4294967296))",
        "(plan (width 2) (depth 2))",
        "(play 0 (paid 5))",
        "(closed (takings 16) (claim 48) (full 64))",
        "(tally 0 (plays 2) (turns 2) (age 0) (named 4))",
        "(view 0 1 2 3 4 5 6 7 8 9 10 11 12 13 14 15 16 17 18 19 20 21 22 23 24 25 26 27 28 29 30 31 32 33 34 35)",
        "lorem ipsum dolor sit amet, consectetur adipiscing elit, sed do eiusmod tempor incididunt ut labore et dolore",
    ];
    let long = "x".repeat(400);
    let mut r = Random(17);
    let mut out = String::from("(plan (depth 8) (width 4))\n");
    out.push_str(&"(campaign (price 5) (budget 5000))\n".repeat(16));
    out.push_str("(start)\n");
    while out.len() < BYTES {
        let at = r.below(lines.len() as u64 + 1) as usize;
        out.push_str(lines.get(at).unwrap_or(&&long[..]));
        out.push('\n');
    }
    out
}

/// A block of lines again and again, up to the size of an input.
fn repeated(first: &str, block: &str) -> String {
    let mut out = String::from(first);
    while out.len() < BYTES {
        out.push_str(block);
    }
    out
}

/// Days whose plans are filled and closed unshown.
fn fillings() -> String {
    let campaigns = "(campaign (price 5000) (budget 20000000))\n".repeat(64);
    repeated("", &format!("(plan (depth 8) (width 4))\n{campaigns}(start)\n(close)\n"))
}

/// Days of a plan, a campaign, a start, a view and a close.
fn short_days() -> String {
    repeated("", "(plan (depth 2) (width 2))\n(campaign (price 5) (budget 10))\n(start)\n(view 0)\n(close)\n")
}

/// A full plan that is handed further campaigns.
fn full_plan() -> String {
    let campaigns = "(campaign (price 5) (budget 5000))\n".repeat(64);
    repeated(&format!("(plan (depth 8) (width 4))\n{campaigns}"), "(campaign (price 7) (budget 700))\n")
}

/// Calls that the blank state refuses.
fn before_the_plan() -> String {
    repeated("", "(campaign (price 5) (budget 10))\n(start)\n(view 0 1)\n(close)\n")
}

/// Views that a running day refuses with 13 and with 14.
fn refused_views() -> String {
    let campaigns = "(campaign (price 5) (budget 5000))\n".repeat(16);
    repeated(&format!("(plan (depth 8) (width 4))\n{campaigns}(start)\n"), "(view 3 16)\n(view 0 2 4 6 8)\n")
}

/// A running day of 64 campaigns, which are paused and resumed again and again.
fn marks() -> String {
    let campaigns = "(campaign (price 5) (budget 5000))\n".repeat(64);
    let marks: String = (0..64).map(|i| format!("(pause {i})\n(resume {})\n", 63 - i)).collect();
    repeated(&format!("(plan (depth 8) (width 4))\n{campaigns}(start)\n"), &marks)
}

/// Days of 16 campaigns in which a fifth of the lines has a byte changed or left out.
fn damaged() -> String {
    let mut r = Random(5);
    let mut out = String::new();
    for line in days(16, 4).lines() {
        let at = r.below(line.len() as u64) as usize;
        match r.below(10) {
            0 => out.extend([&line[..at], &line[at + 1..]]),
            1 => out.extend([&line[..at], "x", &line[at + 1..]]),
            _ => out.push_str(line),
        }
        out.push('\n');
    }
    out
}

/// Lines of a million bytes.
fn long_lines() -> String {
    repeated("", &format!("{}\n", "x".repeat(1_000_000)))
}

extern "C" {
    fn getrusage(who: i32, usage: *mut i64) -> i32;
}

/// Seconds of processor time, user and system, of all programs that were run and have ended.
fn spent() -> f64 {
    const RUSAGE_CHILDREN: i32 = -1;
    let mut usage = [0i64; 32];
    unsafe {
        getrusage(RUSAGE_CHILDREN, usage.as_mut_ptr());
    }
    (usage[0] + usage[2]) as f64 + (usage[1] + usage[3]) as f64 / 1e6
}

fn run(command: &[&str], input: &str, output: Stdio) -> f64 {
    let before = spent();
    let file = File::open(input).expect("the input");
    let status = Command::new(command[0]).args(&command[1..]).stdin(file).stdout(output).status();
    assert!(status.expect("the program runs").success(), "{} failed", command[0]);
    spent() - before
}

/// Both programs' outputs on a file, which must be the same.
fn compare(pumpday: &str, second: &str, input: &str) {
    let outputs = [pumpday, second].map(|program| {
        let name = format!("{input}.{}", program.rsplit('/').next().unwrap_or(program));
        run(&[program], input, File::create(&name).expect("a file").into());
        let bytes = fs::read(&name).expect("its output");
        fs::remove_file(&name).expect("a file");
        bytes
    });
    assert!(outputs[0] == outputs[1], "the outputs differ on {input}");
}

fn main() {
    let args: Vec<String> = std::env::args().skip(1).collect();
    let [pumpday, second, folder, rounds] = &args[..] else { panic!("program PUMPDAY SECOND FOLDER ROUNDS") };
    let rounds: usize = rounds.parse().expect("a number of rounds");
    let inputs = [
        ("2 campaigns, width 2", days(2, 2)),
        ("16 campaigns, width 4", days(16, 4)),
        ("16 campaigns, width 16", days(16, 16)),
        ("64 campaigns, width 4", days(64, 4)),
        ("64 campaigns, width 16", days(64, 16)),
        ("refused lines", refusals()),
        ("views refused 13 and 14", refused_views()),
        ("pauses and resumes", marks()),
        ("damaged days", damaged()),
        ("filling 64 campaigns", fillings()),
        ("days of five lines", short_days()),
        ("a full plan, further campaigns", full_plan()),
        ("calls on the blank state", before_the_plan()),
        ("empty lines", repeated("", "\n")),
        ("lines of 1,000,000 bytes", long_lines()),
    ];
    let commands: [&[&str]; 3] = [&[pumpday], &[second], &["wc", "-l"]];
    println!("Processor time, least of {rounds} rounds in turn; ns a line.\n");
    println!("| input | lines | bytes | pumpday | second | wc -l | second / pumpday | wc / pumpday |");
    println!("|---|---|---|---|---|---|---|---|");
    let mut ratios = 1.0;
    for (name, text) in &inputs {
        let input = format!("{folder}/program.in");
        fs::write(&input, text).expect("a file");
        compare(pumpday, second, &input);
        let mut least = [f64::INFINITY; 3];
        for _ in 0..rounds {
            for (best, command) in least.iter_mut().zip(commands) {
                *best = best.min(run(command, &input, Stdio::null()));
            }
        }
        let lines = text.lines().count();
        let [ours, theirs, wc] = least.map(|seconds| seconds * 1e9 / lines as f64);
        let (ratio, limit) = (theirs / ours, wc / ours);
        println!("| {name} | {lines} | {} | {ours:.1} | {theirs:.1} | {wc:.2} | {ratio:.2} | {limit:.3} |", text.len());
        ratios *= ratio;
        fs::remove_file(&input).expect("a file");
    }
    println!("\noverall, the geometric mean of second / pumpday: {:.2}", f64::powf(ratios, 1.0 / inputs.len() as f64));
}
