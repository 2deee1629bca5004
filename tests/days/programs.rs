//! Two programs run on one input, and the model beside them.

use crate::model;
use std::io::{Read, Write};
use std::process::{Command, Stdio};
use std::sync::mpsc::channel;
use std::thread;
use std::time::Duration;

/// A program that takes longer is stopped.
const LIMIT: Duration = Duration::from_secs(30);
const WELL: &str = "exit status: 0";

/// What a program wrote, and how it ended.
#[derive(PartialEq)]
pub struct Ran {
    pub output: Vec<u8>,
    pub ending: String,
}

fn run(program: &str, input: &[u8]) -> Ran {
    // a program that fails says so in every trial of the shrinking: how it ended is enough
    let mut child = Command::new(program)
        .stdin(Stdio::piped())
        .stdout(Stdio::piped())
        .stderr(Stdio::null())
        .spawn()
        .expect("the program starts");
    let mut stdin = child.stdin.take().expect("a pipe");
    let mut stdout = child.stdout.take().expect("a pipe");
    let bytes = input.to_vec();
    // a program may stop reading: then its ending tells
    let writer = thread::spawn(move || drop(stdin.write_all(&bytes)));
    let (sender, receiver) = channel();
    let reader = thread::spawn(move || {
        let mut output = vec![];
        let _ = stdout.read_to_end(&mut output);
        let _ = sender.send(());
        output
    });
    let in_time = receiver.recv_timeout(LIMIT).is_ok();
    if !in_time {
        let _ = child.kill();
    }
    let status = child.wait().expect("the program ends");
    writer.join().expect("the input is written");
    let output = reader.join().expect("the output is read");
    let ending = if in_time { status.to_string() } else { format!("no end after {LIMIT:?}") };
    Ran { output, ending }
}

pub struct Pair<'a> {
    pub first: &'a str,
    pub second: &'a str,
}

impl Pair<'_> {
    pub fn run(&self, input: &[u8]) -> [Ran; 2] {
        [self.first, self.second].map(|program| run(program, input))
    }

    /// Whether a program gives another output than the model, or does not end well.
    pub fn differ(&self, input: &[u8]) -> bool {
        let wanted = Ran { output: model::output(input), ending: WELL.into() };
        self.run(input).iter().any(|ran| *ran != wanted)
    }
}
