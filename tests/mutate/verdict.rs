//! What rt says of a crate, by the first error of its log.

use std::path::Path;
use std::process::Output;

/// The log of a run, and how it ended; None after the time limit.
pub struct Run {
    pub log: String,
    pub status: Option<i32>,
}

/// Errors that say that a proof no longer fits the code's steps, and not that a fact fails.
const SHAPE: [&str; 5] =
    ["was not admitted", "that can be named from here", "not in scope", " has no field ", " has no `"];

pub fn first<'a>(log: &'a str, is: impl Fn(&&str) -> bool) -> Option<&'a str> {
    log.lines().find(|line| is(line))
}

/// The run of a command under `timeout`.
pub fn ended(output: Output) -> Run {
    let log = String::from_utf8_lossy(&[output.stdout, output.stderr].concat()).into_owned();
    Run { log, status: output.status.code().filter(|code| *code != 124) }
}

pub fn short(line: Option<&str>) -> String {
    line.unwrap_or("").chars().take(160).collect()
}

/// What a line of a log says of the change, if it is an error: one with a code at a source line is the compiler's. A
/// function with a proof of its own fails by the proof's errors, one that the prover proves alone by what is left over.
fn error(line: &str) -> Option<&'static str> {
    let source = line.contains(".rt:");
    if source && line.contains(": error[") {
        Some("not compiled")
    } else if source && line.contains(": it is not proved that ") {
        Some("refused")
    } else if line.contains(".antt:") && line.contains(": error:") {
        Some(if SHAPE.iter().any(|s| line.contains(s)) { "refused by its shape" } else { "refused" })
    } else {
        None
    }
}

/// A caller's proof ends in `close`, which is not admitted where a callee is not proved.
const FOLLOWS: &str = "`close` was not admitted";

/// What an error says of the change, where it does not only follow from a callee's.
pub fn tells(line: &str) -> Option<&'static str> {
    error(line).filter(|_| !line.contains(FOLLOWS))
}

/// What the prover says of a function whose proof it makes, where a need is left.
const NEED_LEFT: &str = "`search` did not prove";

/// What a log says of one function of a crate, `name` or `Type::name` in a source file, and the line that tells: the
/// first error in its own proof, or what is left over where the prover makes the proof. A function's proof rests on its
/// own body and on the contracts of what it calls, so that this tells of a change of its body whatever other bodies are
/// changed as well.
pub fn told_of(name: &str, file: &Path, function: &str, log: &str) -> Option<(&'static str, String)> {
    let module = file.file_stem().map_or("".into(), |stem| stem.to_string_lossy()).into_owned();
    // the proofs of a type's methods stand in the type's folder, wherever it is
    let (folder, path) = match (function.contains("::"), module.as_str()) {
        (true, _) => (String::new(), format!("::{function}")),
        (false, "lib" | "main") => ("/proofs".into(), format!("fn {name}::{function}")),
        (false, _) => (format!("/proofs/{module}"), format!("fn {name}::{module}::{function}")),
    };
    let proofs = ["", "+"].map(|cycle| format!("{folder}/{cycle}{}/", function.replace("::", "/")));
    let files = ["Answers.antt:", "Invariants.antt:", "Proof.antt:"];
    let in_file = |line: &str, path: &str| files.iter().any(|file| line.contains(&format!("{path}{file}")));
    let own = |line: &&str| tells(line).is_some() && proofs.iter().any(|path| in_file(line, path));
    let left = |line: &&str| line.contains(&format!("{path}: no proof: ")) && line.contains(NEED_LEFT);
    match first(log, own) {
        Some(line) => tells(line).map(|word| (word, short(Some(line)))),
        None => first(log, left).map(|line| ("refused", short(Some(line)))),
    }
}

/// What rt says of a crate that it has proved, and of a program that it proved and built before.
const PROVED: &str = "logic=proved ";
const UNCHANGED: &str = "rt: nothing has changed since the last proved build";

/// Told by the first error of the log that does not only follow from a callee's: the later ones may follow from it. A
/// program that is proved is run on its stored input: what fails then is that run, or it does not end.
pub fn verdict(run: &Run) -> (&'static str, String) {
    let told = first(&run.log, |line| tells(line).is_some()).or_else(|| first(&run.log, |line| error(line).is_some()));
    let told = told.and_then(|line| error(line).map(|word| (word, short(Some(line)))));
    let proved = run.log.lines().any(|line| line.starts_with(PROVED) || line.starts_with(UNCHANGED));
    match run.status {
        Some(0) => ("SURVIVED", String::new()),
        _ if proved => ("noticed by a test", short(run.log.lines().last())),
        None => ("no answer in time", String::new()),
        Some(_) => told.unwrap_or_else(|| ("unclear", short(first(&run.log, |l| l.contains("error"))))),
    }
}

#[cfg(test)]
mod tests {
    use super::*;

    const SHAPE_ERROR: &str =
        "a/Proof.antt:21:14: error: `add`: module `Tie` has no `Need-add` that can be named from here\n";
    const PATH_ERROR: &str = "a/Proof.antt:38:39: error: `loop-again`: record `Lts.Start` has no field `before`\n";
    const FACT_ERROR: &str = "a/Proof.antt:25:15: error: `returns`: the two types differ only where one has `63`\n";
    const LEFT_OVER: &str = "a/src/lib.rt:9:5: it is not proved that the sum fits\n";
    const UNPROVED: &str = "fn a::b: not proved\n";

    fn word(parts: &[&str], status: Option<i32>) -> &'static str {
        verdict(&Run { log: parts.concat(), status }).0
    }

    #[test]
    fn the_first_error_tells() {
        assert_eq!(word(&[SHAPE_ERROR, FACT_ERROR, UNPROVED], Some(1)), "refused by its shape");
        assert_eq!(word(&[PATH_ERROR, FACT_ERROR, UNPROVED], Some(1)), "refused by its shape");
        assert_eq!(word(&[FACT_ERROR, SHAPE_ERROR, UNPROVED], Some(1)), "refused");
        assert_eq!(word(&[LEFT_OVER, SHAPE_ERROR, UNPROVED], Some(1)), "refused");
        assert_eq!(word(&["a/src/lib.rt:19:16: error[unknown-name]: no `sat`\n", FACT_ERROR], Some(1)), "not compiled");
    }

    #[test]
    fn what_follows_from_a_callee_does_not_tell() {
        let follows = "b/Proof.antt:92:5: error: `b-spec`: `close` was not admitted (it has holes)\n";
        assert_eq!(word(&[follows, LEFT_OVER, UNPROVED], Some(1)), "refused");
        assert_eq!(word(&[follows, SHAPE_ERROR, FACT_ERROR], Some(1)), "refused by its shape");
        assert_eq!(word(&[follows, UNPROVED], Some(1)), "refused by its shape");
    }

    #[test]
    fn a_function_is_told_by_its_own_proof() {
        let log = "./proofs/a/Proof.antt:1:2: error: `a-spec`: `close` was not admitted\n\
            ./proofs/m/T/b/Answers.antt:3:4: error: `returns`: the two types differ\n\
            ./proofs/m/+e/Invariants.antt:5:6: error: `e`: module `Goals` has no `Need` that can be named from here\n\
            fn c::m::d: no proof: expected answers in ./proofs/m/d/Answers.antt; `search` did not prove `returns`\n";
        let word = |file: &str, function: &str| told_of("c", Path::new(file), function, log).map(|told| told.0);
        assert_eq!(word("src/lib.rt", "a"), None);
        assert_eq!(word("src/lib.rt", "T::b"), Some("refused"));
        assert_eq!(word("src/m.rt", "b"), None);
        assert_eq!(word("src/m.rt", "e"), Some("refused by its shape"));
        assert_eq!(word("src/m.rt", "d"), Some("refused"));
        assert_eq!(word("src/lib.rt", "d"), None);
    }

    #[test]
    fn a_program_that_is_proved_has_failed_its_run() {
        let (proved, unchanged) = ("logic=proved functions=1\n", "rt: nothing has changed since the last proved build\n");
        let failed = "out/written stdout differ: byte 1, line 1\n";
        assert_eq!(word(&[proved, failed], Some(1)), "noticed by a test");
        assert_eq!(word(&[unchanged, failed], Some(1)), "noticed by a test");
        assert_eq!(word(&[proved], None), "noticed by a test");
        assert_eq!(word(&[proved], Some(0)), "SURVIVED");
        assert_eq!(word(&["logic=not-proved\n", FACT_ERROR], Some(1)), "refused");
        assert_eq!(word(&["rt: chose --jobs 2 for pumpday\n"], None), "no answer in time");
    }

    #[test]
    fn no_error_tells_nothing() {
        assert_eq!(word(&[UNPROVED], Some(1)), "unclear");
        assert_eq!(word(&[], Some(0)), "SURVIVED");
        assert_eq!(word(&[FACT_ERROR], None), "no answer in time");
    }
}
