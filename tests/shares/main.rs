//! The sales sheet's shares: (d^k − (d−1)^k) / d^k for every depth k and width d that open, as the pages give them.
//!
//! shares PUMPDAY SHEET FRACTIONS [--write]: compares the tables of both pages with the figures, the plans that open
//! with the program's answers, and the theorems that the sheet cites with their files; or writes the tables.

use std::collections::BTreeSet;
use std::fmt::Write as _;
use std::fs;
use std::io::Write as _;
use std::process::{exit, Command, Stdio};

const DEPTHS: u64 = 32;
const WIDTHS: u64 = 16;
const MOST: u64 = 4_294_967_296;

/// What a plan is refused with, if it is: questions 3, 4 and 5 of document 01.
fn refusal(depth: u64, width: u64) -> Option<u32> {
    if !(1..=DEPTHS).contains(&depth) {
        Some(3)
    } else if !(1..=WIDTHS).contains(&width) {
        Some(4)
    } else {
        let power = width.checked_pow(depth as u32);
        match power.is_some_and(|power| power <= MOST) {
            true => None,
            false => Some(5),
        }
    }
}

/// The share of a plan that opens: its parts are at most 2^32, and have no common divisor, since d and d − 1 have none.
fn share(depth: u64, width: u64) -> (u64, u64) {
    let whole = width.pow(depth as u32);
    (whole - (width - 1).pow(depth as u32), whole)
}

/// In per cent, rounded down to some decimals; the whole is 100.
fn per_cent((part, whole): (u64, u64), decimals: usize) -> String {
    if part == whole {
        return "100".to_string();
    }
    let scale = 10_u64.pow(decimals as u32);
    let units = part * 100 * scale / whole;
    format!("{}.{:0decimals$}", units / scale, units % scale)
}

/// The sheet's table: a row for each depth, depths with the same row together; a dash where the plan does not open.
fn sheet() -> String {
    let mut rows: Vec<(u64, u64, String)> = Vec::new();
    for depth in 1..=DEPTHS {
        let mut row = String::new();
        for width in 1..=WIDTHS {
            let cell = match refusal(depth, width) {
                None => per_cent(share(depth, width), 2),
                Some(_) => "–".to_string(),
            };
            let _ = write!(row, " {cell} |");
        }
        match rows.last_mut() {
            Some((_, last, same)) if *same == row => *last = depth,
            _ => rows.push((depth, depth, row)),
        }
    }
    let mut table = String::from("| depth |");
    for width in 1..=WIDTHS {
        let _ = write!(table, " {width} |");
    }
    table += &format!("\n|---|{}\n", "---:|".repeat(WIDTHS as usize));
    for (first, last, row) in rows {
        let depths = if first == last {
            first.to_string()
        } else {
            format!("{first} to {last}")
        };
        let _ = writeln!(table, "| {depths} |{row}");
    }
    table
}

/// The exact shares, a table for each width.
fn fractions() -> String {
    let mut tables = String::new();
    for width in 1..=WIDTHS {
        let _ = writeln!(
            tables,
            "\n## Width {width}\n\n| depth | share | per cent |\n|---:|---:|---:|"
        );
        for depth in (1..=DEPTHS).filter(|&depth| refusal(depth, width).is_none()) {
            let (part, whole) = share(depth, width);
            let _ = writeln!(
                tables,
                "| {depth} | {part} / {whole} | {} |",
                per_cent((part, whole), 6)
            );
        }
    }
    tables
}

/// The lines of a page before, in and after the table that the tool writes.
fn parts<'a>(page: &str, text: &'a str) -> [&'a str; 3] {
    const BEGIN: &str = "<!-- written by tests/gate/shares --write -->\n";
    const END: &str = "<!-- end of what is written -->\n";
    let begin = text
        .find(BEGIN)
        .unwrap_or_else(|| panic!("{page} has no {BEGIN}"))
        + BEGIN.len();
    let end = begin
        + text[begin..]
            .find(END)
            .unwrap_or_else(|| panic!("{page} has no {END}"));
    [&text[..begin], &text[begin..end], &text[end..]]
}

/// One page's table against the figures, line by line.
fn compare(page: &str, table: &str, failures: &mut Vec<String>) -> usize {
    let text = fs::read_to_string(page).expect(page);
    let [_, held, _] = parts(page, &text);
    let (held, due): (Vec<_>, Vec<_>) = (held.lines().collect(), table.lines().collect());
    if held.len() != due.len() {
        failures.push(format!(
            "{page} has {} lines where {} are due",
            held.len(),
            due.len()
        ));
    }
    let differing = held.iter().zip(&due).filter(|(a, b)| a != b);
    failures.extend(differing.map(|(a, b)| format!("{page}: '{a}' should read '{b}'")));
    due.len()
}

fn write_page(page: &str, table: &str) {
    let text = fs::read_to_string(page).expect(page);
    let [before, _, after] = parts(page, &text);
    fs::write(page, [before, table, after].concat()).expect(page);
}

/// Every plan near the limits, asked of the program: it opens exactly where the tables have a share.
fn ask(program: &str, failures: &mut Vec<String>) -> usize {
    let (mut input, mut due) = (String::new(), Vec::new());
    for (depth, width) in
        (0..=DEPTHS + 2).flat_map(|depth| (0..=WIDTHS + 2).map(move |width| (depth, width)))
    {
        let _ = writeln!(
            input,
            "(plan (depth {depth}) (width {width}))\n(start)\n(close)"
        );
        due.push(match refusal(depth, width) {
            None => "(ok)\n(ok)\n(closed (takings 0) (claim 0) (full 0))\n".to_string(),
            Some(number) => format!("(refused {number})\n(refused 6)\n(refused 11)\n"),
        });
    }
    let mut child = Command::new(program)
        .stdin(Stdio::piped())
        .stdout(Stdio::piped())
        .spawn()
        .expect(program);
    let mut pipe = child.stdin.take().expect("its input");
    let sender = std::thread::spawn(move || pipe.write_all(input.as_bytes()));
    let output = child.wait_with_output().expect(program).stdout;
    sender.join().expect("a sender").expect("its input");
    if output != due.concat().as_bytes() {
        failures.push("the program opens other plans than the tables have".to_string());
    }
    due.len()
}

/// The sheet says that above width 1 more depth raises the share, and that more width lowers it.
fn ordered(failures: &mut Vec<String>) -> usize {
    let opens = |depth, width| refusal(depth, width).is_none();
    let below = |a: (u64, u64), b: (u64, u64)| {
        u128::from(a.0) * u128::from(b.1) < u128::from(b.0) * u128::from(a.1)
    };
    let mut tried = 0;
    for (depth, width) in
        (1..=DEPTHS).flat_map(|depth| (1..=WIDTHS).map(move |width| (depth, width)))
    {
        let deeper = !opens(depth + 1, width)
            || width == 1
            || below(share(depth, width), share(depth + 1, width));
        let wider = !opens(depth, width + 1) || below(share(depth, width + 1), share(depth, width));
        if !deeper || !wider {
            failures.push(format!(
                "depth {depth}, width {width}: shares are not in order"
            ));
        }
        tried += 1;
    }
    tried
}

/// The sheet cites a theorem as `FILE: NAME`, or NAME.FIELD of a record: each is declared in that file.
fn cited(page: &str, failures: &mut Vec<String>) -> usize {
    let text = fs::read_to_string(page).expect(page);
    let cites: BTreeSet<&str> = text
        .split('`')
        .skip(1)
        .step_by(2)
        .filter(|c| c.starts_with("crates/"))
        .collect();
    for cite in &cites {
        let (file, name) = cite.split_once(": ").unwrap_or((cite, ""));
        let source = fs::read_to_string(file).unwrap_or_default();
        let declares = |word: &str| {
            let kinds = ["pub", "pub record", "abbrev pub", "unfoldable pub"];
            let declared = kinds.map(|kind| format!("{kind} {word} "));
            source
                .lines()
                .any(|line| declared.iter().any(|d| line.trim_start().starts_with(d)))
        };
        if !name.split('.').all(declares) {
            failures.push(format!("{page} cites {cite}, which is not there"));
        }
    }
    cites.len()
}

fn main() {
    let arguments: Vec<String> = std::env::args().skip(1).collect();
    let words: Vec<&str> = arguments.iter().map(String::as_str).collect();
    let (program, sheet_page, fraction_page) = match words[..] {
        [_, s, f, "--write"] => {
            write_page(s, &sheet());
            write_page(f, &fractions());
            return;
        }
        [p, s, f] => (p, s, f),
        _ => panic!("shares PUMPDAY SHEET FRACTIONS [--write]"),
    };
    let mut failures = Vec::new();
    let mut tried = compare(sheet_page, &sheet(), &mut failures);
    tried += compare(fraction_page, &fractions(), &mut failures);
    tried += ordered(&mut failures);
    tried += ask(program, &mut failures);
    tried += cited(sheet_page, &mut failures);
    for failure in &failures {
        println!("shares: {failure}");
    }
    println!(
        "{} passed, {} failed",
        tried - failures.len().min(tried),
        failures.len()
    );
    exit(i32::from(!failures.is_empty()));
}
