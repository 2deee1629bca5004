//! Input and output that fail: each failure is told by one line on standard error, and the program ends.

use crate::talk::{ended, fail};
use std::fs::File;
use std::io::{Read, Write};
use std::os::fd::OwnedFd;
use std::os::unix::net::UnixStream;
use std::process::{Child, Command, Stdio};

const UNREAD: &str = "pumpday: standard input could not be read\n";
const UNWRITTEN: &str = "pumpday: standard output could not be written\n";

fn start(program: &str, input: impl Into<Stdio>, output: impl Into<Stdio>) -> Child {
    let mut command = Command::new(program);
    command.stdin(input).stdout(output).stderr(Stdio::piped()).spawn().expect("the program starts")
}

/// The program's end, after just these bytes on standard error.
fn told(name: &str, child: &mut Child, wanted: &str) {
    ended(name, child, false);
    let mut said = String::new();
    child.stderr.take().expect("a pipe").read_to_string(&mut said).expect("its standard error");
    if said != wanted {
        fail(name, &format!("it told {said:?} instead of {wanted:?}"));
    }
}

fn answered(name: &str, child: &mut Child, wanted: &str) {
    let mut said = String::new();
    child.stdout.take().expect("a pipe").read_to_string(&mut said).expect("its output");
    if said != wanted {
        fail(name, &format!("it answered {said:?} instead of {wanted:?}"));
    }
}

fn full() -> File {
    File::options().write(true).open("/dev/full").expect("a device that is full")
}

/// Two ends that do not wait: ours, and one for the program.
fn unwaiting() -> (UnixStream, OwnedFd) {
    let (ours, its) = UnixStream::pair().expect("a pair of sockets");
    its.set_nonblocking(true).expect("an end that does not wait");
    (ours, its.into())
}

/// Whoever read the answers is gone: the system ends the program at its write, although its input goes on, and nothing
/// is told.
pub fn reader_gone(program: &str) {
    let mut child = start(program, Stdio::piped(), Stdio::piped());
    let mut input = child.stdin.take().expect("a pipe");
    drop(child.stdout.take());
    let _ = input.write_all(b"(start)\n");
    told("no reader", &mut child, "");
}

/// A write that fails ends the program, although its input goes on: this device takes nothing.
pub fn no_room(program: &str) {
    let mut child = start(program, Stdio::piped(), full());
    let mut input = child.stdin.take().expect("a pipe");
    let _ = input.write_all(b"(start)\n");
    told("no room", &mut child, UNWRITTEN);
}

/// So does the answer to a last line.
pub fn no_room_at_the_end(program: &str) {
    let mut child = start(program, Stdio::piped(), full());
    let _ = child.stdin.take().expect("a pipe").write_all(b"(start)");
    told("no room at the end", &mut child, UNWRITTEN);
}

/// A read that fails counts as the end of input: a folder cannot be read.
pub fn unreadable(program: &str) {
    let mut child = start(program, File::open("/").expect("a folder"), Stdio::piped());
    answered("no input", &mut child, "");
    told("no input", &mut child, UNREAD);
}

/// An input that does not wait and has nothing yet cannot be read either: what came before it counts as a last line.
pub fn input_unready(program: &str) {
    let (mut ours, its) = unwaiting();
    ours.write_all(b"(start)").expect("room for a line");
    let mut child = start(program, its, Stdio::piped());
    answered("input unready", &mut child, "(refused 6)\n");
    told("input unready", &mut child, UNREAD);
}

/// An output that does not wait, and that nobody reads, takes no more at some time.
pub fn output_unready(program: &str) {
    let (_ours, its) = unwaiting();
    let mut child = start(program, Stdio::piped(), its);
    let _ = child.stdin.take().expect("a pipe").write_all(&[b'\n'; 300_000]);
    told("output unready", &mut child, UNWRITTEN);
}
