//! Reads the lines of a recorded day from standard input and prints the
//! station's page of the state that they lead to.

use second::{page, Session};
use std::io::{self, BufRead, Write};
use std::process::ExitCode;

fn main() -> ExitCode {
    match run(io::stdin().lock(), io::stdout().lock()) {
        Ok(()) => ExitCode::SUCCESS,
        Err(_) => ExitCode::FAILURE,
    }
}

/// The answers to the lines are left unsaid.
fn run(input: impl BufRead, mut output: impl Write) -> io::Result<()> {
    let mut session = Session::new();
    let mut answers = Vec::new();
    for line in input.split(b'\n') {
        session.answer(&line?, &mut answers);
        answers.clear();
    }
    let mut buffer = [0; page::MAX_PAGE];
    // The state of a session is always sound and the buffer holds any page.
    let length = page::write(session.day(), &mut buffer).unwrap_or(0);
    output.write_all(&buffer[..length])?;
    output.flush()
}
