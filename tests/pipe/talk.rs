//! A program that is spoken to over pipes, with a time limit on every answer.

use std::io::{Read, Write};
use std::process::{Child, ChildStdin, Command, Stdio};
use std::sync::mpsc::{channel, Receiver};
use std::thread;
use std::time::{Duration, Instant};

/// An answer that takes longer is a failure.
const LIMIT: Duration = Duration::from_secs(20);
/// How long a program that must say nothing is listened to. Too short a time can only miss a failure.
const PAUSE: Duration = Duration::from_millis(2);

pub struct Talk {
    name: String,
    child: Child,
    input: Option<ChildStdin>,
    output: Receiver<Vec<u8>>,
    heard: Vec<u8>,
}

pub fn fail(name: &str, what: &str) -> ! {
    println!("{name}: {what}");
    println!("0 passed, 1 failed");
    std::process::exit(1)
}

/// The program's end within the limit, with status 0 where `well` asks for it.
pub fn ended(name: &str, child: &mut Child, well: bool) {
    let start = Instant::now();
    while start.elapsed() < LIMIT {
        match child.try_wait().expect("its end is asked for") {
            Some(status) if well && !status.success() => fail(name, &format!("it ended with {status}")),
            Some(_) => return,
            None => thread::sleep(PAUSE),
        }
    }
    let _ = child.kill();
    fail(name, "it did not end")
}

impl Talk {
    pub fn with(program: &str, name: &str) -> Talk {
        let mut command = Command::new(program);
        let mut child = command.stdin(Stdio::piped()).stdout(Stdio::piped()).spawn().expect("the program starts");
        let input = child.stdin.take();
        let mut stdout = child.stdout.take().expect("a pipe");
        let (sender, output) = channel();
        // reads until the output ends, so that the program never waits for a full pipe
        thread::spawn(move || {
            let mut piece = [0; 4_096];
            while let Ok(n @ 1..) = stdout.read(&mut piece) {
                if sender.send(piece[..n].to_vec()).is_err() {
                    break;
                }
            }
        });
        Talk { name: name.into(), child, input, output, heard: vec![] }
    }

    pub fn send(&mut self, piece: impl AsRef<[u8]>) {
        let input = self.input.as_mut().expect("its input is open");
        if let Err(error) = input.write_all(piece.as_ref()) {
            fail(&self.name, &format!("it took no more input: {error}"));
        }
    }

    fn wrong(&self, wanted: &[u8]) -> ! {
        let (heard, wanted) = (self.heard.escape_ascii(), wanted.escape_ascii());
        fail(&self.name, &format!("answered {heard} instead of {wanted}"))
    }

    /// Exactly these bytes come next.
    pub fn hear(&mut self, wanted: impl AsRef<[u8]>) {
        let wanted = wanted.as_ref();
        while self.heard.len() < wanted.len() {
            match self.output.recv_timeout(LIMIT) {
                Ok(piece) => self.heard.extend(piece),
                Err(_) => self.wrong(wanted),
            }
        }
        if self.heard != wanted {
            self.wrong(wanted);
        }
        self.heard.clear();
    }

    /// The most memory that the program has used so far, in KiB.
    pub fn memory(&self) -> u64 {
        let status = std::fs::read_to_string(format!("/proc/{}/status", self.child.id())).expect("its status");
        let line = status.lines().find_map(|l| l.strip_prefix("VmHWM:")).expect("its memory");
        line.trim().trim_end_matches(" kB").parse().expect("a number")
    }

    /// The program is stopped for a moment, wherever it stands.
    pub fn stop_for_a_moment(&self) {
        for signal in ["-STOP", "-CONT"] {
            let id = self.child.id().to_string();
            let sent = Command::new("kill").args([signal, &id]).status().expect("a signal");
            if !sent.success() {
                self.fail("it cannot be stopped");
            }
            thread::sleep(PAUSE);
        }
    }

    pub fn fail(&self, what: &str) -> ! {
        fail(&self.name, what)
    }

    pub fn say(&mut self, line: impl AsRef<[u8]>, answer: impl AsRef<[u8]>) {
        self.send(line);
        self.hear(answer);
    }

    pub fn hear_nothing(&mut self) {
        if let Ok(piece) = self.output.recv_timeout(PAUSE) {
            self.heard.extend(piece);
            self.wrong(b"");
        }
    }

    /// The input ends: these bytes come, then the output ends, and the program with status 0.
    pub fn end(mut self, wanted: impl AsRef<[u8]>) {
        self.input = None;
        self.hear(wanted);
        match self.output.recv_timeout(LIMIT) {
            Ok(piece) => {
                self.heard.extend(piece);
                self.wrong(b"");
            }
            Err(std::sync::mpsc::RecvTimeoutError::Timeout) => fail(&self.name, "its output did not end"),
            Err(std::sync::mpsc::RecvTimeoutError::Disconnected) => ended(&self.name, &mut self.child, true),
        }
    }
}
