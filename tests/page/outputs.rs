//! What two programs print for one recorded day.

use std::io::Write;
use std::path::PathBuf;
use std::process::{Command, Stdio};

/// What a program prints for an input; it has to end well and say nothing on standard error.
fn printed(program: &str, input: &[u8]) -> Result<Vec<u8>, String> {
    let mut child = Command::new(program)
        .stdin(Stdio::piped())
        .stdout(Stdio::piped())
        .stderr(Stdio::piped())
        .spawn()
        .map_err(|e| format!("{program}: {e}"))?;
    let mut pipe = child.stdin.take().expect("a pipe");
    pipe.write_all(input).map_err(|e| format!("{program}: {e}"))?;
    drop(pipe);
    let end = child.wait_with_output().map_err(|e| format!("{program}: {e}"))?;
    if !end.status.success() || !end.stderr.is_empty() {
        return Err(format!("{program}: {}, {}", end.status, String::from_utf8_lossy(&end.stderr)));
    }
    Ok(end.stdout)
}

/// What both programs print for an input, or how they differ.
pub fn same(programs: [&str; 2], input: &[u8]) -> Result<Vec<u8>, String> {
    let ours = printed(programs[0], input)?;
    let due = printed(programs[1], input)?;
    if ours != due {
        let text = |page: &[u8]| page.escape_ascii().to_string().replace("\\n", "\n");
        let [input, ours, due] = [input, &ours, &due].map(text);
        return Err(format!("input:\n{input}\nprinted:\n{ours}\nby the second program:\n{due}"));
    }
    Ok(ours)
}

/// The days of a corpus, without their answers.
pub fn files(corpus: &str) -> Vec<PathBuf> {
    let folder = std::fs::read_dir(corpus).expect("the corpus").flatten();
    let mut files: Vec<_> = folder.map(|f| f.path()).filter(|f| f.extension().is_none()).collect();
    files.sort();
    files
}
