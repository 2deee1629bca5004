//! Days of text for both programs, and their outputs compared with each other and with the model's, byte for byte.
//!
//! days PUMPDAY SECOND CORPUS OUT [SEEDS [FIRST]]: the files of the folder CORPUS, each with its stored answers, then
//! the days of SEEDS seeds from FIRST on. OUT gets `coverage`, how often each case was seen in the generated days, and
//! after a difference the smallest input found and all outputs.

mod day;
mod model;
mod noise;
mod programs;
mod random;
mod seen;
mod shrink;
mod state;

use programs::Pair;
use seen::Seen;
use std::fs;
use std::path::{Path, PathBuf};

/// From so many seeds on, every case must have been seen.
const ENOUGH: u64 = 2_000;

fn fail(what: &str) -> ! {
    println!("{what}");
    println!("0 passed, 1 failed");
    std::process::exit(1)
}

/// Both programs give the model's answers to this input.
fn compare(pair: &Pair, out: &str, name: &str, input: &[u8]) {
    if !pair.differ(input) {
        return;
    }
    let least = shrink::least(input, &|input| pair.differ(input));
    let [first, second] = pair.run(&least);
    let file = |end: &str| format!("{out}/difference.{end}");
    let outputs = [("pumpday", &first.output), ("second", &second.output), ("model", &model::output(&least))];
    for (end, bytes) in [("in", &least)].iter().chain(&outputs) {
        fs::write(file(end), bytes).expect("a file");
    }
    println!("{name}: the outputs differ ({}; {}). The smallest input found is in", first.ending, second.ending);
    let [first, second, model] = outputs.map(|o| file(o.0));
    fail(&format!("  {}, the outputs in\n  {first}, {second} and {model}", file("in")))
}

/// A file of the corpus with its stored answers, which the model gives too.
fn compare_file(pair: &Pair, out: &str, file: &Path) {
    let name = file.display().to_string();
    let Ok(answers) = fs::read(file.with_extension("answers")) else {
        fail(&format!("{name} has no answers beside it"))
    };
    let input = fs::read(file).expect("a file");
    compare(pair, out, &name, &input);
    let output = model::output(&input);
    if output != answers {
        fs::write(format!("{out}/output"), output).expect("a file");
        fail(&format!("{name}: all answer otherwise: {out}/output"));
    }
}

/// The stored days; their answers stand beside them.
fn days_of(corpus: &str) -> Vec<PathBuf> {
    let mut all: Vec<_> = fs::read_dir(corpus).expect("a folder").map(|f| f.expect("a file").path()).collect();
    all.sort();
    let is_answers = |file: &PathBuf| file.extension().is_some_and(|e| e == "answers");
    let (answers, files): (Vec<_>, Vec<_>) = all.into_iter().partition(is_answers);
    if let Some(alone) = answers.iter().find(|a| !files.contains(&a.with_extension(""))) {
        fail(&format!("{} answers no day", alone.display()));
    }
    if files.is_empty() {
        fail(&format!("{corpus} is empty"));
    }
    files
}

/// What the generated days have shown.
fn judge(seen: &Seen, seeds: u64) {
    let (wrong, unseen) = (seen.wrong(), seen.unseen());
    if !wrong.is_empty() {
        fail(&wrong.join("\n"));
    }
    if seeds >= ENOUGH && !unseen.is_empty() {
        fail(&unseen.join("\n"));
    }
    if !unseen.is_empty() {
        println!("{} cases not seen in so few", unseen.len());
    }
}

fn main() {
    let args: Vec<String> = std::env::args().skip(1).collect();
    let [first, second, corpus, out, numbers @ ..] = &args[..] else {
        panic!("days PUMPDAY SECOND CORPUS OUT [SEEDS [FIRST]]")
    };
    let pair = Pair { first, second };
    let number = |at: usize, other: u64| numbers.get(at).map_or(other, |n| n.parse().expect("a number"));
    let (seeds, from) = (number(0, ENOUGH), number(1, 0));
    let mut passed = 0;
    for file in days_of(corpus) {
        compare_file(&pair, out, &file);
        passed += 1;
    }
    let mut seen = Seen::new();
    let mut lines = 0;
    for seed in from..from + seeds {
        let input = day::input(seed);
        compare(&pair, out, &format!("seed {seed}"), &input);
        lines += model::lines(&input).count();
        seen.walk(&input);
        passed += 1;
    }
    fs::write(format!("{out}/coverage"), seen.report()).expect("a file");
    println!("{lines} lines from {seeds} seeds; {} cases, counted in {out}/coverage", seen.len());
    judge(&seen, seeds);
    println!("{passed} passed, 0 failed");
}
