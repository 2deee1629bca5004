//! Single changes of the proved sources, each of which the prover should refuse.
//!
//! mutants ROOT FOLDER WORK [--each N] [--limit SECONDS] [--sample N] [--list | --compile] (CRATE | ID)...
//! ROOT is the project; FOLDER gets `list`, `results` and the logs in `log`, WORK the copy that is changed. What stands
//! in `results` is not run again, unless the crate is another by now or the time was too short.
//! ROOT/tests/mutate/MUTANTS.md is written anew.

mod change;
mod prover;
mod report;
mod source;
mod verdict;

use change::{Changer, Scope};
use prover::{Prover, Verdict};
use std::collections::BTreeMap;
use std::fs;
use std::io::Write;
use std::path::{Path, PathBuf};
use std::process::Command;
use std::time::Instant;
use verdict::told_of;

const CRATES: [&str; 30] = [
    "sets",
    "powers",
    "exchange",
    "matching",
    "certificate",
    "campaigns",
    "audit",
    "choice",
    "questions",
    "day",
    "noon",
    "optimum",
    "lines",
    "print",
    "writer",
    "page",
    "earnings",
    "reply",
    "batch",
    "stream",
    "recording",
    "replay",
    "wire",
    "teller",
    "pumpday",
    "pumppage",
    "pumpgreatest",
    "encoding",
    "wezghuli",
    "wezghuli_c",
];

pub struct Mutant {
    pub id: String,
    pub name: String,
    pub file: PathBuf,
    /// Counted from 1.
    pub line: usize,
    pub item: String,
    pub operator: &'static str,
    pub old: String,
    pub new: String,
    /// Whether it changes the body of a function.
    pub function: bool,
    /// Tells the crate's files from those of another day.
    pub print: String,
}

impl Mutant {
    /// What was changed, on one line.
    pub fn diff(&self) -> String {
        format!("{} → {}", self.old.trim(), self.new.trim())
    }

    /// What its result is known by.
    pub fn key(&self) -> String {
        format!("{}\t{}\t{}", self.id, self.print, self.diff())
    }

    fn changed(&self, source: &str) -> String {
        let mut lines: Vec<&str> = source.lines().collect();
        lines[self.line - 1] = &self.new;
        lines.join("\n") + "\n"
    }
}

/// The source files of a crate, in order.
fn files(root: &Path, name: &str) -> Vec<PathBuf> {
    let folder = PathBuf::from("crates").join(name).join("src");
    let mut found: Vec<PathBuf> = fs::read_dir(root.join(&folder))
        .expect("the crate's sources")
        .map(|f| folder.join(f.expect("a file").file_name()))
        .collect();
    found.sort();
    found
}

/// Kinds that add or leave out a step of the code. The others keep all steps, so that no proof fails for another reason
/// than a fact, and come first.
pub const OTHER_STEPS: [&str; 4] = ["argument", "branch", "index", "store"];

/// At most `each` of an item's changes, taken in turn from each kind, the rarest kind first, and spread over the item.
fn chosen(all: Vec<Mutant>, each: usize) -> Vec<Mutant> {
    let mut by_kind: BTreeMap<&str, Vec<Mutant>> = BTreeMap::new();
    for mutant in all {
        by_kind.entry(mutant.operator).or_default().push(mutant);
    }
    let mut kinds: Vec<Vec<Mutant>> = by_kind.into_values().collect();
    kinds.sort_by_key(|k| (OTHER_STEPS.contains(&k[0].operator), k.len()));
    let mut kept = vec![];
    while kept.len() < each && kinds.iter().any(|k| !k.is_empty()) {
        for kind in kinds.iter_mut().filter(|k| !k.is_empty()) {
            if kept.len() < each {
                // the middle one first, so that a long item is not changed at its front alone
                kept.push(kind.remove(kind.len() / 2));
            }
        }
    }
    kept.sort_by_key(|m| m.line);
    kept
}

/// The bytes of all files of a folder, in order, as one number (FNV-1a).
fn print(folder: &Path, mut sum: u64) -> u64 {
    let mut paths: Vec<PathBuf> = fs::read_dir(folder).expect("a folder").map(|f| f.expect("a file").path()).collect();
    paths.sort();
    for path in paths {
        if path.is_dir() {
            sum = print(&path, sum);
        } else {
            let bytes = fs::read(&path).expect("a file");
            sum = bytes.iter().fold(sum, |sum, b| (sum ^ u64::from(*b)).wrapping_mul(0x0100_0000_01b3));
        }
    }
    sum
}

fn mutants(root: &Path, name: &str, each: usize, changer: &Changer) -> Vec<Mutant> {
    let mut found = vec![];
    let crate_folder = root.join("crates").join(name);
    let parts = ["src", "specs", "proofs"].map(|part| crate_folder.join(part));
    let proved = parts.into_iter().filter(|part| part.is_dir());
    let print = format!("{:016x}", proved.fold(0xcbf2_9ce4_8422_2325, |sum, part| print(&part, sum)));
    for file in files(root, name) {
        let source = fs::read_to_string(root.join(&file)).expect("a source file");
        let lines: Vec<&str> = source.lines().collect();
        for item in source::items(&lines) {
            let scope = Scope::of(item.parameters, &lines[item.body.clone()]);
            let of_line = |at: usize| changer.changes(lines[at], &scope).into_iter().map(move |c| (at, c));
            let all = item.body.clone().flat_map(of_line).map(|(at, change)| Mutant {
                id: String::new(),
                name: name.into(),
                file: file.clone(),
                line: at + 1,
                item: item.name.clone(),
                function: !lines[item.body.start].contains("const "),
                operator: change.operator,
                old: lines[at].into(),
                new: change.line,
                print: print.clone(),
            });
            // a table has a line for each entry, all alike
            let most = if lines[item.body.start].ends_with("= [") { each.min(2) } else { each };
            found.extend(chosen(all.collect(), most));
        }
    }
    for (i, mutant) in found.iter_mut().enumerate() {
        mutant.id = format!("{name}-{:03}", i + 1);
    }
    found
}

/// The crates with what is proved of them, and the tests of the program, copied to a folder of their own.
fn copy(root: &Path, work: &Path) {
    // the steps of the gate that judge a program read these pages
    for part in ["crates", "tests", "second", "docs", "crates.txt", "run", "README.md"] {
        let done = Command::new("cp").arg("-a").arg(root.join(part)).arg(work.join(part)).status();
        assert!(done.expect("cp runs").success(), "{part} is not copied");
    }
}

/// Says which changes do not compile: the operators should make few of them.
fn compile(prover: &Prover, name: &str, all: &[&Mutant]) {
    let mut bad = 0;
    for mutant in all {
        let source = fs::read_to_string(prover.work.join(&mutant.file)).expect("a source file");
        if let Err(why) = prover.compiled(name, &mutant.file, &mutant.changed(&source)) {
            println!("{}: {}: {why}", mutant.id, mutant.diff());
            bad += 1;
        }
    }
    println!("{name}: {bad} of {} do not compile", all.len());
}

struct Options {
    each: usize,
    limit: u64,
    sample: usize,
    list: bool,
    compile: bool,
    crates: Vec<String>,
}

fn options(words: &[String]) -> Options {
    let mut o = Options { each: 4, limit: 300, sample: usize::MAX, list: false, compile: false, crates: vec![] };
    let mut words = words.iter();
    while let Some(word) = words.next() {
        let mut number = || words.next().and_then(|n| n.parse::<u64>().ok()).expect("a number");
        match word.as_str() {
            "--each" => o.each = number() as usize,
            "--limit" => o.limit = number(),
            "--sample" => o.sample = number() as usize,
            "--list" => o.list = true,
            "--compile" => o.compile = true,
            name => o.crates.push(name.into()),
        }
    }
    if o.crates.is_empty() {
        o.crates = CRATES.map(String::from).to_vec();
    }
    o
}

/// All changes of the crates' sources.
fn all(root: &Path, each: usize) -> Vec<Mutant> {
    let read = |file: PathBuf| fs::read_to_string(root.join(file)).expect("a source file");
    let sources: Vec<String> = CRATES.iter().flat_map(|name| files(root, name)).map(read).collect();
    let siblings = source::siblings(&sources);
    let numbers = source::numbers(&sources);
    let changer = Changer { siblings: &siblings, numbers: &numbers };
    CRATES.iter().flat_map(|name| mutants(root, name, each, &changer)).collect()
}

/// Changes to be tried at once, each of another function; a change of a constant stands alone.
fn rounds<'a>(open: &[&'a Mutant]) -> Vec<Vec<&'a Mutant>> {
    let mut found: Vec<Vec<&Mutant>> = vec![];
    for mutant in open {
        let free = |round: &&mut Vec<&Mutant>| {
            mutant.function && round.iter().all(|m| m.function && (&m.file, &m.item) != (&mutant.file, &mutant.item))
        };
        match found.iter_mut().find(free) {
            Some(round) => round.push(mutant),
            None => found.push(vec![mutant]),
        }
    }
    found
}

/// The files that some changes change, and their texts.
fn texts(work: &Path, round: &[&Mutant]) -> Vec<(PathBuf, String)> {
    let mut files: BTreeMap<&PathBuf, String> = BTreeMap::new();
    for mutant in round {
        let text = files
            .entry(&mutant.file)
            .or_insert_with(|| fs::read_to_string(work.join(&mutant.file)).expect("a source file"));
        *text = mutant.changed(text);
    }
    files.into_iter().map(|(file, text)| (file.clone(), text)).collect()
}

/// Judges these changes of a crate, and puts down each result and its log. What the log of a round does not tell of is
/// tried alone.
fn run(prover: &Prover, folder: &Path, name: &str, open: &[&Mutant]) {
    if let Err(log) = prover.baseline(name) {
        println!("{log}");
        std::process::exit(1);
    }
    fs::create_dir_all(folder.join("log")).expect("a folder");
    for round in rounds(open) {
        let start = Instant::now();
        let log = if round.len() > 1 { prover.together(name, &texts(&prover.work, &round)) } else { String::new() };
        println!("{name}: {} at once, {:.1} s", round.len(), start.elapsed().as_secs_f64());
        for mutant in &round {
            let source = fs::read_to_string(prover.work.join(&mutant.file)).expect("a source file");
            let verdict = match told_of(name, &mutant.file, &mutant.item, &log) {
                Some((word, why)) => Verdict { word, why, log: log.clone(), seconds: 0.0 },
                None => prover.judge(name, &mutant.file, &mutant.changed(&source)),
            };
            put(folder, mutant, &verdict);
        }
    }
}

/// One result, and its log.
fn put(folder: &Path, mutant: &Mutant, verdict: &Verdict) {
    println!("{} {:.1} s {}: {}", mutant.id, verdict.seconds, verdict.word, mutant.diff());
    fs::write(folder.join("log").join(&mutant.id), &verdict.log).expect("a log");
    let line = format!("{}\t{}\t{}\n", mutant.key(), verdict.word, verdict.why.replace('\t', " "));
    let results = folder.join("results");
    let mut file = fs::OpenOptions::new().create(true).append(true).open(results).expect("a file");
    file.write_all(line.as_bytes()).expect("a line");
}

fn main() {
    let args: Vec<String> = std::env::args().skip(1).collect();
    let [root, folder, work] = [0, 1, 2].map(|i| PathBuf::from(&args[i]));
    let o = options(&args[3..]);
    let all = all(&root, o.each);
    let line =
        |m: &Mutant| format!("{}\t{}:{}\t{}\t{}\t{}\n", m.id, m.file.display(), m.line, m.item, m.operator, m.diff());
    fs::write(folder.join("list"), all.iter().map(line).collect::<String>()).expect("a file");
    if o.list {
        println!("{} changes, listed in {}", all.len(), folder.join("list").display());
        return;
    }
    let results = folder.join("results");
    copy(&root, &work);
    let prover = Prover { work, limit: o.limit };
    for name in &o.crates {
        let known = report::read(&results);
        let of_crate: Vec<&Mutant> = all.iter().filter(|m| m.name == *name || m.id == *name).collect();
        let Some(name) = of_crate.first().map(|m| &m.name) else { panic!("{name} is neither a crate nor a change") };
        if o.compile {
            compile(&prover, name, &of_crate);
            continue;
        }
        let step = of_crate.len().div_ceil(o.sample).max(1);
        let told = |m: &&Mutant| known.get(&m.key()).is_some_and(|r| r.0 != "no answer in time");
        let open: Vec<&Mutant> = of_crate.into_iter().step_by(step).filter(|m| !told(m)).collect();
        if !open.is_empty() {
            run(&prover, &folder, name, &open);
        }
    }
    if o.compile {
        return;
    }
    let text = report::text(&all, &report::read(&results), o.each);
    fs::write(root.join("tests/mutate/MUTANTS.md"), text).expect("the report");
}
