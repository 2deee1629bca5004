//! A copy of the project in which one line is changed at a time, and what the prover says of it.

use crate::verdict::{ended, first, short, verdict, Run};
use std::fs::{self, File};
use std::path::{Path, PathBuf};
use std::process::{Command, Stdio};
use std::time::Instant;

/// What the programs read and write is not proved but tested: the crates that have it, and the steps of the gate.
const TESTED: [(&str, &[&[&str]]); 5] = [
    ("wire", &[&["tests/gate/pipe"], &["tests/gate/days", "50"]]),
    ("teller", &[&["tests/gate/page"], &["tests/gate/run"]]),
    ("pumpday", &[&["tests/gate/pipe"], &["tests/gate/days", "50"]]),
    ("pumppage", &[&["tests/gate/page"], &["tests/gate/run"]]),
    ("pumpgreatest", &[&["tests/gate/run"]]),
];

/// Runs a program on its stored day, once it is proved.
const STORED_DAY: &str = "rt run < stdin > out/written && cmp out/written stdout";

pub struct Prover {
    /// The copy.
    pub work: PathBuf,
    /// Seconds for one change.
    pub limit: u64,
}

pub struct Verdict {
    pub word: &'static str,
    /// The line of the log that tells.
    pub why: String,
    pub log: String,
    pub seconds: f64,
}

impl Prover {
    fn folder(&self, name: &str) -> PathBuf {
        self.work.join("crates").join(name)
    }

    fn is_program(&self, name: &str) -> bool {
        self.folder(name).join("src/main.rt").is_file()
    }

    /// What a command says in the crate's folder in the copy.
    fn run(&self, command: &[&str], name: &str, limit: u64) -> Run {
        let mut timed = Command::new("timeout");
        timed.arg(limit.to_string()).args(command).current_dir(self.folder(name)).stdin(Stdio::null());
        ended(timed.output().expect("timeout and rt are there"))
    }

    /// The crate in the copy, checked over what `rt` kept of the checks before; a program is run on its stored day too.
    fn proved(&self, name: &str, limit: u64) -> Run {
        let command: &[&str] = if self.is_program(name) { &["sh", "-c", STORED_DAY] } else { &["rt", "check"] };
        self.run(command, name, limit)
    }

    /// The crate as it is must be proved, in whatever time (0), and its steps of the gate must pass, or nothing can be
    /// told of its changes.
    pub fn baseline(&self, name: &str) -> Result<(), String> {
        let run = self.proved(name, 0);
        if run.status != Some(0) {
            return Err(format!("rt fails without any change:\n{}", run.log));
        }
        self.failed_step(name).map_or(Ok(()), |log| Err(format!("a step fails without any change:\n{log}")))
    }

    /// Whether the compiler takes the crate, or its first error. It proves nothing.
    pub fn compiled(&self, name: &str, file: &Path, changed: &str) -> Result<(), String> {
        let run = self.with(file, changed, || self.run(&["rt", "check", "--only", ""], name, self.limit));
        match first(&run.log, |l| l.contains(": error[")) {
            Some(line) => Err(line.into()),
            None if run.status.is_none() => Err("no answer in time".into()),
            None => Ok(()),
        }
    }

    /// The code of the crate as it stands, which is built only where it is proved.
    fn code(&self, name: &str) -> Option<Vec<u8>> {
        let library = format!("out/rlib/{name}.rlib/toolchain/mir.json");
        let (command, made) = if self.is_program(name) { ("run", format!("out/{name}")) } else { ("lib", library) };
        let run = self.run(&["rt", command], name, self.limit);
        fs::read(self.folder(name).join(made)).ok().filter(|_| run.status == Some(0))
    }

    /// Something done while a file is changed.
    fn with<T>(&self, file: &Path, changed: &str, job: impl FnOnce() -> T) -> T {
        let path = self.work.join(file);
        let before = fs::read(&path).expect("a source file");
        fs::write(&path, changed).expect("the changed file");
        let done = job();
        fs::write(&path, before).expect("the file as it was");
        done
    }

    /// The log of the first step that fails with the crate as it is changed.
    fn failed_step(&self, name: &str) -> Option<String> {
        let steps = TESTED.iter().find(|(tested, _)| *tested == name).map_or(&[][..], |(_, steps)| steps);
        steps.iter().find_map(|step| self.step(step))
    }

    /// The log goes to a file, and what a step leaves running is ended: a changed program may not end by itself.
    fn step(&self, step: &[&str]) -> Option<String> {
        let path = self.work.join("step.log");
        let log = File::create(&path).expect("a file");
        let mut child = Command::new("timeout")
            .arg(self.limit.to_string())
            .args(step)
            .current_dir(&self.work)
            .stdout(log.try_clone().expect("a file"))
            .stderr(log)
            .spawn()
            .expect("timeout is there");
        let status = child.wait().expect("the step ends");
        // timeout leads a process group of its own
        let _ = Command::new("kill").args(["-KILL", "--", &format!("-{}", child.id())]).output();
        let log = fs::read(path).expect("the log");
        (!status.success()).then(|| format!("{}: {status}\n{}", step[0], String::from_utf8_lossy(&log)))
    }

    /// Changes of several functions at once, as files and their texts: the log of the prover's run.
    pub fn together(&self, name: &str, changed: &[(PathBuf, String)]) -> String {
        let paths: Vec<PathBuf> = changed.iter().map(|(file, _)| self.work.join(file)).collect();
        let before: Vec<Vec<u8>> = paths.iter().map(|path| fs::read(path).expect("a source file")).collect();
        for (path, (_, text)) in paths.iter().zip(changed) {
            fs::write(path, text).expect("the changed file");
        }
        let run = self.run(&["rt", "check"], name, self.limit);
        for (path, text) in paths.iter().zip(before) {
            fs::write(path, text).expect("the file as it was");
        }
        run.log
    }

    pub fn judge(&self, name: &str, file: &Path, changed: &str) -> Verdict {
        let start = Instant::now();
        let (run, failed) = self.with(file, changed, || {
            let run = self.proved(name, self.limit);
            let failed = if run.status == Some(0) { self.failed_step(name) } else { None };
            (run, failed)
        });
        let seconds = start.elapsed().as_secs_f64();
        let (mut word, mut why) = verdict(&run);
        let mut log = run.log;
        if let Some(step) = failed {
            (word, why, log) = ("noticed by a test", short(step.lines().next()), step);
        }
        let unchanged = fs::read_to_string(self.work.join(file)).expect("a source file");
        if word == "SURVIVED" {
            let code = self.with(file, changed, || self.code(name));
            if code.is_some() && code == self.with(file, &unchanged, || self.code(name)) {
                word = "the same code";
            }
        }
        Verdict { word, why: why.replace(&format!("{}/", self.work.display()), ""), log, seconds }
    }
}
