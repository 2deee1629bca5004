//! The results as a page.

use crate::{Mutant, CRATES};
use std::collections::BTreeMap;
use std::fmt::Write;
use std::fs;
use std::path::Path;
use std::process::Command;

/// By the change's key: the verdict, and the line of the log that tells.
pub type Results = BTreeMap<String, (String, String)>;

const WORDS: [&str; 8] = [
    "refused",
    "refused by its shape",
    "noticed by a test",
    "SURVIVED",
    "the same code",
    "not compiled",
    "no answer in time",
    "unclear",
];

/// Why lent memory may hold anything before the search.
const SEARCHED: &str = "the search puts what is read of it, whatever stood there";
/// Survivors that mean the same: the item, the change, and why.
const SAME: [(&str, &str, &str); 8] = [
    ("complete", "if kept == 0 { 0 } else { keep(pending, kept, s) } → \
        if kept == 0 { 1 } else { keep(pending, kept, s) }", "with no byte pending the line is the input's own; no one \
        asks the number"),
    ("earned_at", "let mut allotment: [u64; 256] = [0; 256]; → let mut allotment: [u64; 256] = [1; 256];", SEARCHED),
    ("earned_at", "let mut surplus: [u64; 64] = [0; 64]; → let mut surplus: [u64; 64] = [1; 64];", SEARCHED),
    ("earned_at", "let mut worth: [u64; 256] = [0; 256]; → let mut worth: [u64; 256] = [1; 256];", SEARCHED),
    ("put_figures", "let to = put_field(out, to, b\") (greatest \", Slot::Money, greatest); → \
        let to = put_field(out, to, b\") (greatest \", Slot::Input, greatest);", "a number reads alike in every slot \
        but that of names"),
    ("run", "views: [0; ENTRIES], → views: [1; ENTRIES],", "a view is put before it is read"),
    ("feed_in_place", "let mut list = [0; 33]; → let mut list = [1; 33];", "the weights are put before they are read, \
        or the state is not sound and nobody reads them"),
    ("ENTRIES", "const ENTRIES: usize = 257; → const ENTRIES: usize = 258;", "any number above 256 will do: a day of \
        more views is refused either way"),
];

fn why_same(m: &Mutant) -> &'static str {
    let found = SAME.iter().find(|(item, change, _)| m.item == *item && m.diff() == *change);
    found.map_or("NOT EXPLAINED", |(_, _, why)| why)
}

pub fn read(file: &Path) -> Results {
    let text = fs::read_to_string(file).unwrap_or_default();
    let fields = |line: &str| -> Option<(String, (String, String))> {
        let parts: Vec<&str> = line.split('\t').collect();
        let [id, print, diff, word, why] = parts[..] else { return None };
        Some((format!("{id}\t{print}\t{diff}"), (word.into(), why.into())))
    };
    text.lines().filter_map(fields).collect()
}

fn today() -> String {
    let output = Command::new("date").arg("+%F").output().expect("date runs");
    String::from_utf8_lossy(&output.stdout).trim().into()
}

/// A change inside a table's cell.
fn cell(text: &str) -> String {
    format!("`{}`", text.replace('|', "\\|"))
}

fn table(out: &mut String, head: &str, rows: impl Iterator<Item = String>) {
    let columns = head.matches('|').count() - 1;
    let _ = writeln!(out, "{head}\n|{}", "---|".repeat(columns));
    rows.for_each(|row| out.push_str(&row));
    out.push('\n');
}

/// What the page says before its tables.
fn intro(each: usize) -> String {
    format!(
        "# Single changes of the proved code\n\n\
        Each change is one small fault in one line: a comparison, an operation, a constant by 1, operands, a field, a \
        call, an enum's case, all of which keep the steps of the code; or an argument or an index by 1, a store that \
        leaves what was there, a branch, which may not. At most {each} of a function or constant are taken, in turn \
        from each kind. The prover should refuse each one that changes what the code does.\n\n\
        Made by `tests/mutants` on {}. `tests/mutants CRATE...`, or with ids, runs what was not run on the crate as it \
        is and writes this page; `--list` only lists, `--compile` only compiles, `--sample N` takes some N of a crate, \
        `--each N` takes more of each function, `--limit SECONDS` is the time for one (300). The results stand in \
        `target/mutants`, or in the folder that MUTANTS names.\n\n\
        Changes of several functions are tried at once, and each is told by the first error in its own function's \
        proof, which rests on no other body; what that does not tell of is tried alone.\n\n\
        The first error of the log tells, as document 90 asks; the logs stand beside the results. *Refused*: it says \
        that a fact fails. *Refused by its shape*: it says only that the proof no longer fits the steps. *Noticed by \
        a test*: of `wire` and the programs, whose input and output are not proved, the stored day fails, or \
        `tests/gate/pipe`, `days`, `page` or `run`. \
        *SURVIVED*: `rt check` proves the crate with the change; each is to be explained or its contract made \
        stronger. *The same code* (a constant that only crates above \
        use, a pattern that an earlier arm has) and *not compiled* count for nothing.\n\n",
        today()
    )
}

/// The changes with one verdict, which a reader should look at.
fn listed<'a>(out: &mut String, title: &str, rows: impl Iterator<Item = &'a Mutant>, why: fn(&Mutant) -> &'static str) {
    let row = |m: &Mutant| {
        format!("| {} | {}:{} | {} | {} | {} |\n", m.id, m.file.display(), m.line, m.item, cell(&m.diff()), why(m))
    };
    let _ = writeln!(out, "## {title}\n");
    table(out, "| id | line | in | change | means the same, since |", rows.map(row));
}

pub fn text(all: &[Mutant], results: &Results, each: usize) -> String {
    let of = |m: &Mutant| results.get(&m.key());
    let word = |m: &Mutant| of(m).map_or("", |r| r.0.as_str());
    let count =
        |name: &str, w: &str| all.iter().filter(|m| (name.is_empty() || m.name == name) && word(m) == w).count();
    let mut out = intro(each);
    let row = |name: &str| {
        let listed = all.iter().filter(|m| name.is_empty() || m.name == name).count();
        let counts: Vec<String> = WORDS.iter().map(|w| count(name, w).to_string()).collect();
        let open = count(name, "");
        let title = if name.is_empty() { "all" } else { name };
        format!("| {title} | {listed} | {} | {open} |\n", counts.join(" | "))
    };
    let head = format!("| crate | changes | {} | not run |", WORDS.join(" | "));
    table(&mut out, &head, CRATES.iter().copied().chain([""]).map(row));
    let looked_at: [(&str, &str, fn(&Mutant) -> &'static str); 3] = [
        ("SURVIVED", "Survived", why_same),
        ("unclear", "Unclear", |_| ""),
        ("no answer in time", "No answer in time", |_| ""),
    ];
    for (w, title, why) in looked_at.into_iter().filter(|l| count("", l.0) > 0) {
        listed(&mut out, title, all.iter().filter(|m| word(m) == w), why);
    }
    out.push_str("## All that were run\n\n");
    let row = |m: &Mutant| {
        format!(
            "| {} | {}:{} | {} | {} | {} | {} |\n",
            m.id,
            m.file.display(),
            m.line,
            m.item,
            m.operator,
            cell(&m.diff()),
            word(m)
        )
    };
    table(&mut out, "| id | line | in | kind | change | result |", all.iter().filter(|m| !word(m).is_empty()).map(row));
    out.trim_end().to_string() + "\n"
}
