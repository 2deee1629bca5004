//! pumpday over a pipe: each answer must come before the next piece of input is sent.
//!
//! pipe PUMPDAY STDIN STDOUT: the program, and document 01's listing with its answers.

mod failing;
mod talk;

use std::fs;
use talk::Talk;

/// A longer input than one read takes.
const BLOCKS: usize = 300_000;

/// Each line of an input, with the lines that answer it: the closing has a tally for each campaign.
fn paired<'a>(input: &'a str, answers: &'a str) -> Vec<(&'a str, String)> {
    let mut answers = answers.split_inclusive('\n').peekable();
    input
        .split_inclusive('\n')
        .map(|line| {
            let mut answer = answers.next().expect("an answer for each line").to_string();
            while answers.peek().is_some_and(|a| a.starts_with("(tally ")) {
                answer += answers.next().expect("a tally");
            }
            (line, answer)
        })
        .collect()
}

fn line_by_line(talk: &mut Talk, day: &[(&str, String)]) {
    for (line, answer) in day {
        talk.send(line);
        talk.hear(answer);
    }
}

/// Two days after one another, the closings with their tallies.
fn whole_days(talk: &mut Talk, day: &[(&str, String)]) {
    line_by_line(talk, day);
    line_by_line(talk, day);
}

/// Nothing is answered before byte 10 has come, and then at once.
fn byte_by_byte(talk: &mut Talk, day: &[(&str, String)]) {
    for (line, answer) in day {
        for byte in line.bytes() {
            talk.hear_nothing();
            talk.send([byte]);
        }
        talk.hear(answer);
    }
}

/// A signal that stops the program while it waits for input makes no read fail.
fn stopped(talk: &mut Talk, day: &[(&str, String)]) {
    for (line, answer) in day {
        talk.stop_for_a_moment();
        talk.say(line, answer);
    }
}

/// Two lines and the front of a third in one write; then its rest with one more.
fn several_in_one_write(talk: &mut Talk) {
    talk.send("(plan (depth 2) (width 2))\n(campaign (price 5) (budget 10))\n(sta");
    talk.hear("(ok)\n(ok)\n");
    talk.send("rt)\n(view 0)\n");
    talk.hear("(ok)\n(play 0 (paid 5))\n");
    talk.send("\n\n\n");
    talk.hear("(refused 17)\n(refused 17)\n(refused 17)\n");
}

fn empty_lines(talk: &mut Talk) {
    for _ in 0..3 {
        talk.send("\n");
        talk.hear("(refused 17)\n");
    }
}

/// One answer to a line that comes in pieces and is over 200 bytes; the next line is read from its front.
fn long_in_pieces(talk: &mut Talk) {
    for pieces in [vec![150, 51], vec![200, 1], vec![201], vec![1; 202], vec![150, 70_000, 1, 70_000]] {
        for piece in pieces {
            talk.send("x".repeat(piece));
            talk.hear_nothing();
        }
        talk.send("\n");
        talk.hear("(refused 16)\n");
        talk.send("(start)\n");
        talk.hear("(refused 6)\n");
    }
    talk.send("x".repeat(150));
    talk.send("x".repeat(50));
    talk.hear_nothing();
    talk.send("\n");
    talk.hear("(refused 17)\n");
}

/// Many lines over the edges of the blocks that the program reads.
fn blocks(talk: &mut Talk) {
    let line = "(view 0 1 2 3 4 5)\n";
    let lines = BLOCKS / line.len();
    talk.send(line.repeat(lines));
    talk.hear("(refused 11)\n".repeat(lines));
    // thirteen times as many bytes come out as go in
    talk.send("\n".repeat(BLOCKS));
    talk.hear("(refused 17)\n".repeat(BLOCKS));
}

/// A line of 30,000,000 bytes and a million lines take no more memory than the first ones.
fn constant_memory(talk: &mut Talk) {
    blocks(talk);
    let before = talk.memory();
    let piece = "x".repeat(1_000_000);
    for _ in 0..30 {
        talk.send(&piece);
    }
    talk.say("\n", "(refused 16)\n");
    for _ in 0..10 {
        talk.say("(start)\n".repeat(100_000), "(refused 6)\n".repeat(100_000));
    }
    let more = talk.memory() - before;
    if more > 256 {
        talk.fail(&format!("{more} KiB more memory after a long input"));
    }
}

/// 64 campaigns and one more, 4,096 views and one more, and a closing with 64 tallies.
fn full_day(talk: &mut Talk) {
    talk.say("(plan (depth 1) (width 1))\n", "(ok)\n");
    for _ in 0..64 {
        talk.say("(campaign (price 7) (budget 7))\n", "(ok)\n");
    }
    talk.say("(campaign (price 7) (budget 7))\n", "(refused 7)\n");
    talk.say("(start)\n", "(ok)\n");
    for view in 0..4_096 {
        let name = view % 64;
        let answer = if view < 64 { format!("(play {name} (paid 7))\n") } else { "(nobody)\n".into() };
        talk.say(format!("(view {name})\n"), answer);
    }
    talk.say("(view 0)\n", "(refused 12)\n");
    let tally = |n| format!("(tally {n} (plays 1) (turns 1) (age 0) (named 64))\n");
    let tallies: String = (0..64).map(tally).collect();
    talk.say("(close)\n", format!("(closed (takings 448) (claim 448) (full 448))\n{tallies}"));
}

/// A last line counts without byte 10 if it has bytes; what came before it was answered before.
fn last_lines(program: &str) {
    for (front, last, answer) in [
        ("", "", ""),
        ("", "(start)", "(refused 6)\n"),
        ("(close)\n", "", ""),
        ("(close)\n", "(", "(refused 17)\n"),
        ("(close)\n", " ", "(refused 17)\n"),
        ("\n", "\0", "(refused 17)\n"),
    ] {
        let mut talk = Talk::with(program, "last line");
        if !front.is_empty() {
            talk.send(front);
            talk.hear(if front == "\n" { "(refused 17)\n" } else { "(refused 11)\n" });
        }
        talk.send(last);
        talk.hear_nothing();
        talk.end(answer);
    }
    let mut talk = Talk::with(program, "long last line");
    talk.send("x".repeat(200));
    talk.send("x");
    talk.end("(refused 16)\n");
}

/// The last line closes the day: its tallies come with it.
fn last_line_closes(program: &str, day: &[(&str, String)]) {
    let mut talk = Talk::with(program, "last line closes");
    let (last, before) = day.split_last().expect("a line");
    line_by_line(&mut talk, before);
    talk.send(last.0.trim_end());
    talk.hear_nothing();
    talk.end(&last.1);
}

fn main() {
    let args: Vec<String> = std::env::args().skip(1).collect();
    let [program, stdin, stdout] = &args[..] else { panic!("pipe PUMPDAY STDIN STDOUT") };
    let file = |name: &String| fs::read_to_string(name).expect("the listing");
    let (input, answers) = (file(stdin), file(stdout));
    let day = paired(&input, &answers);
    let mut passed = 0;
    let mut talked = |name: &str, with: &dyn Fn(&mut Talk)| {
        let mut talk = Talk::with(program, name);
        with(&mut talk);
        talk.end("");
        passed += 1;
    };
    talked("whole days", &|t| whole_days(t, &day));
    talked("byte by byte", &|t| byte_by_byte(t, &day));
    talked("several lines in one write", &several_in_one_write);
    talked("empty lines", &empty_lines);
    talked("long lines in pieces", &long_in_pieces);
    talked("several blocks", &blocks);
    talked("constant memory", &constant_memory);
    talked("a full day", &full_day);
    talked("stopped for a moment", &|t| stopped(t, &day));
    let mut tried = |check: &dyn Fn(&str)| {
        check(program);
        passed += 1;
    };
    tried(&last_lines);
    tried(&|p| last_line_closes(p, &day));
    tried(&failing::reader_gone);
    tried(&failing::no_room);
    tried(&failing::no_room_at_the_end);
    tried(&failing::unreadable);
    tried(&failing::input_unready);
    tried(&failing::output_unready);
    println!("{passed} passed, 0 failed");
}
