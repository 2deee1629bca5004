//! The program over standard input and output, and the splitting of input.

use crate::common::{answers, answers_in_pieces, Random, LISTING, LISTING_ANSWERS};
use std::io::{BufRead, BufReader, Write};
use std::process::{Command, Stdio};

fn program() -> Command {
    let mut command = Command::new(env!("CARGO_BIN_EXE_second"));
    command.stdin(Stdio::piped()).stdout(Stdio::piped());
    command
}

/// Runs the program over an input small enough not to fill the pipes.
fn run(input: &[u8]) -> Vec<u8> {
    let mut child = program().spawn().unwrap();
    child.stdin.take().unwrap().write_all(input).unwrap();
    let output = child.wait_with_output().unwrap();
    assert!(output.status.success());
    output.stdout
}

fn refusals(numbers: &[u64]) -> Vec<u8> {
    let line = |n: &u64| format!("(refused {n})\n").into_bytes();
    numbers.iter().flat_map(line).collect()
}

/// The same answers come from the program and from input in pieces.
#[track_caller]
fn check(input: impl AsRef<[u8]>, expected: impl AsRef<[u8]>) {
    let (input, expected) = (input.as_ref(), expected.as_ref());
    assert_eq!(run(input), expected, "{}", input.escape_ascii());
    for size in [1, 2, 7, 199, 200, 201, 202, 1 << 16] {
        assert_eq!(answers_in_pieces(input, size), expected);
    }
}

/// Each line with its answers.
#[track_caller]
fn dialogue(exchanges: &[(&str, &str)]) {
    let (lines, answers): (Vec<&str>, Vec<&str>) = exchanges.iter().copied().unzip();
    check(lines.join("\n"), answers.join("\n") + "\n");
}

#[test]
fn listing() {
    check(LISTING, LISTING_ANSWERS);
    check(LISTING.trim_end(), LISTING_ANSWERS);
}

#[test]
fn no_input_no_answer() {
    check("", "");
}

#[test]
fn empty_lines() {
    check("\n", refusals(&[17]));
    check("\n\n\n", refusals(&[17; 3]));
    check("\n(start)", refusals(&[17, 6]));
}

#[test]
fn last_line_without_its_end() {
    check("(start)", refusals(&[6]));
    check("(start)\n", refusals(&[6]));
    check("(start)\n ", refusals(&[6, 17]));
    check("\0", refusals(&[17]));
    check("\r", refusals(&[17]));
}

#[test]
fn line_lengths() {
    for (length, number) in [
        (1, 17),
        (199, 17),
        (200, 17),
        (201, 16),
        (202, 16),
        (9_000, 16),
    ] {
        let line = "x".repeat(length);
        check(&line, refusals(&[number]));
        check(format!("{line}\n"), refusals(&[number]));
        check(
            format!("{line}\n(start)\n{line}"),
            refusals(&[number, 6, number]),
        );
    }
}

#[test]
fn long_line_is_skipped_to_its_end() {
    // Forms inside a long line are not read.
    let line = "(plan (depth 2) (width 2))".repeat(8);
    assert!(line.len() > 200);
    check(format!("{line}\n(start)\n"), refusals(&[16, 6]));
    let mut input = vec![b'('; 1 << 20];
    assert_eq!(answers_in_pieces(&input, 4_096), refusals(&[16]));
    input.push(b'\n');
    input.extend_from_slice(b"(close)\n");
    assert_eq!(answers_in_pieces(&input, 4_096), refusals(&[16, 11]));
}

#[test]
fn output_forms_are_refused() {
    for form in [
        "(ok)",
        "(play 0 (paid 5))",
        "(nobody)",
        "(refused 17)",
        "(closed (takings 16) (claim 48) (full 64))",
        "(tally 0 (plays 2) (turns 2) (age 0) (named 4))",
    ] {
        check(form, refusals(&[17]));
    }
}

#[test]
fn line_ends_of_other_systems() {
    check("(start)\r\n", refusals(&[17]));
    check("(start)\r(start)\n", refusals(&[17]));
}

#[test]
fn every_refusal_a_line_can_get() {
    dialogue(&[
        ("(plan (depth 0) (width 1))", "(refused 3)"),
        ("(plan (depth 1) (width 0))", "(refused 4)"),
        ("(plan (depth 9) (width 16))", "(refused 5)"),
        ("(start)", "(refused 6)"),
        ("(close)", "(refused 11)"),
        ("(plan (depth 2) (width 2))", "(ok)"),
        ("(plan (depth 2) (width 2))", "(refused 2)"),
        ("(campaign (price 0) (budget 1))", "(refused 8)"),
        ("(campaign (price 2) (budget 1))", "(refused 9)"),
        ("(campaign (price 1) (budget 2000000000))", "(ok)"),
        ("(campaign (price 1) (budget 1))", "(refused 10)"),
        ("(view 0)", "(refused 11)"),
        ("(start)", "(ok)"),
        ("(pause 1)", "(refused 15)"),
        ("(view 1)", "(refused 13)"),
        ("(view)", "(nobody)"),
        ("(campaign (price 1) (budget 1))", "(refused 6)"),
        (
            "(close)",
            "(closed (takings 0) (claim 0) (full 0))\n\
            (tally 0 (plays 0) (turns 0) (age 0) (named 0))",
        ),
        ("(plan (depth 1) (width 1))", "(ok)"),
        ("(campaign (price 1) (budget 1))", "(ok)"),
        ("(campaign (price 1) (budget 1))", "(ok)"),
        ("(start)", "(ok)"),
        ("(view 0 1)", "(refused 14)"),
        ("(view 64)", "(refused 17)"),
    ]);
}

#[test]
fn view_of_nobody() {
    let input = LISTING.replace("(view 0)\n", "(view)\n(view 0)\n(view)\n");
    let expected = LISTING_ANSWERS.replace("(nobody)\n", &"(nobody)\n".repeat(3));
    check(input, expected);
    check("(view)\n", refusals(&[11]));
    check("(view )\n", refusals(&[17]));
}

#[test]
fn pausing_and_resuming() {
    dialogue(&[
        ("(pause 0)", "(refused 11)"),
        ("(resume 0)", "(refused 11)"),
        ("(plan (depth 2) (width 1))", "(ok)"),
        ("(campaign (price 5) (budget 10))", "(ok)"),
        ("(campaign (price 3) (budget 6))", "(ok)"),
        ("(pause 0)", "(refused 11)"),
        ("(start)", "(ok)"),
        ("(view 0 1)", "(refused 14)"),
        ("(pause 0)", "(ok)"),
        ("(view 0 1)", "(play 1 (paid 3))"),
        ("(pause 0)", "(ok)"),
        ("(view 0)", "(nobody)"),
        ("(view 0 2)", "(refused 13)"),
        ("(pause 2)", "(refused 15)"),
        ("(resume 2)", "(refused 15)"),
        ("(pause 64)", "(refused 17)"),
        ("(resume 64)", "(refused 17)"),
        ("(resume 0)", "(ok)"),
        ("(resume 0)", "(ok)"),
        ("(view 0)", "(play 0 (paid 5))"),
        (
            "(close)",
            "(closed (takings 8) (claim 8) (full 8))\n\
            (tally 0 (plays 1) (turns 1) (age 0) (named 1))\n\
            (tally 1 (plays 1) (turns 1) (age 0) (named 1))",
        ),
        ("(pause 0)", "(refused 11)"),
        ("(resume 0)", "(refused 11)"),
    ]);
}

#[test]
fn full_plan_and_full_day() {
    let mut input = String::from("(plan (depth 8) (width 16))\n");
    input += &"(campaign (price 1) (budget 1))\n".repeat(65);
    input += "(start)\n";
    input += &"(view 63)\n".repeat(4_097);
    input += "(close)\n";
    let out = answers(input.as_bytes());
    let lines: Vec<&str> = std::str::from_utf8(&out).unwrap().lines().collect();
    assert_eq!(lines.len(), 1 + 65 + 1 + 4_097 + 65);
    assert_eq!(lines[65], "(refused 7)");
    assert_eq!(lines[67], "(play 63 (paid 1))");
    assert_eq!(lines[67 + 4_095], "(nobody)");
    assert_eq!(lines[67 + 4_096], "(refused 12)");
    assert_eq!(
        lines[67 + 4_097],
        "(closed (takings 1) (claim 1732076671) (full 4294967296))"
    );
    assert_eq!(
        lines.last().unwrap(),
        &"(tally 63 (plays 1) (turns 1) (age 0) (named 4096))"
    );
    assert_eq!(
        lines.iter().filter(|l| l.starts_with("(tally ")).count(),
        64
    );
}

#[test]
fn days_follow_one_another() {
    let input = LISTING.repeat(3);
    check(input, LISTING_ANSWERS.repeat(3));
}

#[test]
fn listing_in_random_pieces() {
    let mut random = Random(31);
    for _ in 0..200 {
        let mut stream = second::Stream::new();
        let mut out = Vec::new();
        let mut rest = LISTING.as_bytes();
        while !rest.is_empty() {
            let (piece, after) = rest.split_at(random.within(0, rest.len() as u64) as usize);
            stream.feed(piece, &mut out);
            rest = after;
        }
        stream.finish(&mut out);
        assert_eq!(out, LISTING_ANSWERS.as_bytes());
    }
}

#[test]
fn answers_come_before_more_input_is_awaited() {
    let mut child = program().spawn().unwrap();
    let mut input = child.stdin.take().unwrap();
    let mut output = BufReader::new(child.stdout.take().unwrap());
    let mut expected = LISTING_ANSWERS.lines();
    for line in LISTING.lines() {
        let (front, back) = line.split_at(line.len() / 2);
        input.write_all(front.as_bytes()).unwrap();
        input.write_all(back.as_bytes()).unwrap();
        input.write_all(b"\n").unwrap();
        let mut answer = String::new();
        output.read_line(&mut answer).unwrap();
        assert_eq!(Some(answer.trim_end()), expected.next());
    }
    drop(input);
    assert_eq!(expected.count(), output.lines().count());
    assert!(child.wait().unwrap().success());
}
