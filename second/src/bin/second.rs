//! Reads lines from standard input and answers each on standard output.

use second::Stream;
use std::io::{self, ErrorKind, Read, Write};
use std::process::ExitCode;

/// Most bytes taken at a time. The answers to them stay under sixteen times as
/// many: empty lines are the worst, at 13 bytes each, and one closing of a full
/// plan adds less than 8 KiB.
const PIECE: usize = 1 << 16;

fn main() -> ExitCode {
    match run(io::stdin().lock(), io::stdout().lock()) {
        Ok(()) => ExitCode::SUCCESS,
        Err(_) => ExitCode::FAILURE,
    }
}

/// Answers all input. Every answer is flushed before more input is awaited. A
/// failing input or output ends the program without a word.
fn run(mut input: impl Read, mut output: impl Write) -> io::Result<()> {
    let mut piece = vec![0; PIECE];
    let mut answers = Vec::new();
    let mut stream = Stream::new();
    loop {
        match input.read(&mut piece) {
            Ok(0) => break,
            Ok(length) => stream.feed(&piece[..length], &mut answers),
            Err(error) if error.kind() == ErrorKind::Interrupted => continue,
            Err(error) => return Err(error),
        }
        send(&mut answers, &mut output)?;
    }
    stream.finish(&mut answers);
    send(&mut answers, &mut output)
}

fn send(answers: &mut Vec<u8>, output: &mut impl Write) -> io::Result<()> {
    output.write_all(answers)?;
    output.flush()?;
    answers.clear();
    Ok(())
}
