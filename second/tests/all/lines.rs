//! The thirteen forms, read and written.

use crate::common::{play, Random};
use second::lines::{append, read, write, MAX_LINE};
use second::{Answer, Record};

const U32: u64 = u32::MAX as u64;
/// The greatest number of twelve digits.
const TWELVE: u64 = 999_999_999_999;

fn written(record: &Record) -> Vec<u8> {
    let mut out = Vec::new();
    append(record, &mut out).unwrap();
    out
}

fn closed(takings: u64, claim: u64, full: u64) -> Record {
    Record::Output(Answer::Closed {
        takings,
        claim,
        full,
    })
}

fn tally(campaign: u64, counts: [u64; 4]) -> Record {
    let [plays, turns, age, named] = counts;
    Record::Output(Answer::Tally {
        campaign,
        plays,
        turns,
        age,
        named,
    })
}

fn plan(depth: u64, width: u64) -> Record {
    Record::Plan { depth, width }
}

fn campaign(price: u64, budget: u64) -> Record {
    Record::Campaign { price, budget }
}

/// The text reads as the record, and the record is written as the text.
#[track_caller]
fn pair(text: &str, record: Record) {
    assert_eq!(read(text.as_bytes()), Ok(record), "{text}");
    assert_eq!(written(&record), format!("{text}\n").into_bytes());
}

#[track_caller]
fn no_form(text: impl AsRef<[u8]>) {
    let text = text.as_ref();
    assert_eq!(read(text), Err(17), "{}", text.escape_ascii());
}

#[test]
fn input_forms() {
    pair("(plan (depth 2) (width 2))", plan(2, 2));
    pair("(plan (depth 0) (width 4294967295))", plan(0, U32));
    pair("(plan (depth 4294967296) (width 0))", plan(U32 + 1, 0));
    pair("(plan (depth 0) (width 999999999999))", plan(0, TWELVE));
    pair("(plan (depth 999999999999) (width 1))", plan(TWELVE, 1));
    pair("(campaign (price 5) (budget 10))", campaign(5, 10));
    pair("(campaign (price 4294967295) (budget 0))", campaign(U32, 0));
    pair(
        "(campaign (price 0) (budget 4294967296))",
        campaign(0, U32 + 1),
    );
    pair(
        "(campaign (price 999999999999) (budget 100000000000))",
        campaign(TWELVE, 100_000_000_000),
    );
    pair(
        "(campaign (price 1) (budget 999999999999))",
        campaign(1, TWELVE),
    );
    pair("(start)", Record::Start);
    pair("(view)", Record::View(0));
    pair("(view 0)", Record::View(1));
    pair("(view 0 1)", Record::View(0b11));
    pair("(view 9 10 63)", Record::View(1 << 9 | 1 << 10 | 1 << 63));
    pair("(pause 0)", Record::Pause(0));
    pair("(pause 63)", Record::Pause(63));
    pair("(resume 0)", Record::Resume(0));
    pair("(resume 63)", Record::Resume(63));
    pair("(close)", Record::Close);
}

#[test]
fn output_forms() {
    pair("(ok)", Record::Output(Answer::Ok));
    pair("(play 0 (paid 5))", Record::Output(play(0, 5)));
    pair("(play 63 (paid 4294967295))", Record::Output(play(63, U32)));
    pair("(nobody)", Record::Output(Answer::Nobody));
    pair("(refused 1)", Record::Output(Answer::Refused(1)));
    pair("(refused 18)", Record::Output(Answer::Refused(18)));
    pair("(refused 19)", Record::Output(Answer::Refused(19)));
    pair(
        "(closed (takings 16) (claim 48) (full 64))",
        closed(16, 48, 64),
    );
    pair(
        "(closed (takings 18446744073709551615) (claim 18446744073709551614) (full 0))",
        closed(u64::MAX, u64::MAX - 1, 0),
    );
    pair(
        "(tally 0 (plays 2) (turns 2) (age 0) (named 4))",
        tally(0, [2, 2, 0, 4]),
    );
    pair(
        "(tally 63 (plays 4294967295) (turns 4294967295) (age 4294967295) (named 4294967295))",
        tally(63, [U32; 4]),
    );
}

#[test]
fn view_of_all_names_is_the_longest_line() {
    let names: Vec<String> = (0..64).map(|n| n.to_string()).collect();
    let text = format!("(view {})", names.join(" "));
    assert_eq!(text.len(), 188);
    pair(&text, Record::View(u64::MAX));
}

#[test]
fn line_lengths() {
    no_form("");
    for length in [1, 199, 200] {
        no_form(vec![b'a'; length]);
    }
    for length in [201, 202, 10_000] {
        assert_eq!(read(&vec![b'a'; length]), Err(16));
    }
    // A form stretched by spaces stays no form, then gets too long.
    let stretched = |spaces| [b"(start)".as_slice(), &vec![b' '; spaces]].concat();
    no_form(stretched(MAX_LINE - 7));
    assert_eq!(read(&stretched(MAX_LINE - 6)), Err(16));
}

#[test]
fn numbers_one_beyond() {
    no_form("(plan (depth 1000000000000) (width 1))");
    no_form("(plan (depth 1) (width 1000000000000))");
    no_form("(campaign (price 1000000000000) (budget 1))");
    no_form("(campaign (price 1) (budget 1000000000000))");
    no_form("(campaign (price 1) (budget 9999999999999))");
    no_form("(campaign (price 1) (budget 18446744073709551615))");
    no_form("(campaign (price 1) (budget 18446744073709551616))");
    no_form("(campaign (price 1) (budget 99999999999999999999999999999999999999))");
    no_form("(view 64)");
    no_form("(view 4294967296)");
    no_form("(view 4294967295)");
    no_form("(view 999999999999)");
    no_form("(view 18446744073709551616)");
    for number in [
        "64",
        "100",
        "4294967295",
        "999999999999",
        "18446744073709551616",
    ] {
        no_form(format!("(pause {number})"));
        no_form(format!("(resume {number})"));
    }
    no_form("(play 64 (paid 1))");
    no_form("(play 0 (paid 4294967296))");
    no_form("(refused 0)");
    no_form("(refused 20)");
    no_form("(closed (takings 18446744073709551616) (claim 0) (full 0))");
    no_form("(closed (takings 0) (claim 18446744073709551616) (full 0))");
    no_form("(closed (takings 0) (claim 0) (full 18446744073709551616))");
    no_form("(closed (takings 0) (claim 0) (full 99999999999999999999))");
    no_form("(tally 64 (plays 0) (turns 0) (age 0) (named 0))");
    no_form("(tally 0 (plays 4294967296) (turns 0) (age 0) (named 0))");
    no_form("(tally 0 (plays 0) (turns 4294967296) (age 0) (named 0))");
    no_form("(tally 0 (plays 0) (turns 0) (age 4294967296) (named 0))");
    no_form("(tally 0 (plays 0) (turns 0) (age 0) (named 4294967296))");
}

#[test]
fn input_numerals_of_every_length() {
    for length in 1..=20 {
        for digit in ["1", "9"] {
            let numeral = digit.repeat(length);
            let texts = [
                format!("(plan (depth {numeral}) (width 1))"),
                format!("(plan (depth 1) (width {numeral}))"),
                format!("(campaign (price {numeral}) (budget 1))"),
                format!("(campaign (price 1) (budget {numeral}))"),
            ];
            if length > 12 {
                texts.iter().for_each(no_form);
            } else {
                let n = numeral.parse().unwrap();
                let records = [plan(n, 1), plan(1, n), campaign(n, 1), campaign(1, n)];
                texts.iter().zip(records).for_each(|(t, r)| pair(t, r));
            }
        }
    }
}

#[test]
fn long_numerals_have_no_leading_zeros() {
    for numeral in [
        "000000000000",
        "012345678901",
        "0999999999999",
        "0000000000001",
    ] {
        no_form(format!("(plan (depth {numeral}) (width 1))"));
        no_form(format!("(campaign (price 1) (budget {numeral}))"));
    }
}

#[test]
fn numerals() {
    for numeral in [
        "00", "01", "007", "+1", "-1", "1.0", "1e3", "0x1", "", "a", "1_0",
    ] {
        no_form(format!("(plan (depth {numeral}) (width 1))"));
        no_form(format!("(view {numeral})"));
        no_form(format!("(pause {numeral})"));
        no_form(format!("(resume {numeral})"));
        no_form(format!("(refused {numeral})"));
    }
    no_form("(view 0 01)");
    no_form("(closed (takings 00) (claim 0) (full 0))");
}

#[test]
fn spaces() {
    no_form(" (start)");
    no_form("(start) ");
    no_form("( start)");
    no_form("(start )");
    no_form("(plan  (depth 2) (width 2))");
    no_form("(plan (depth  2) (width 2))");
    no_form("(plan (depth 2 ) (width 2))");
    no_form("(plan (depth 2)  (width 2))");
    no_form("(plan (depth 2)(width 2))");
    no_form("(plan(depth 2) (width 2))");
    no_form("(plan (depth 2) (width 2) )");
    no_form("(plan (depth2) (width 2))");
    no_form("(pause  0)");
    no_form("(pause 0 )");
    no_form("(pause0)");
    no_form("(view  0)");
    no_form("(view 0  1)");
    no_form("(view 0 )");
    no_form("(view )");
    no_form("(view0)");
    no_form("(view\t0)");
    no_form("(view 0\t1)");
}

#[test]
fn words() {
    no_form("(Start)");
    no_form("(START)");
    no_form("(VIEW 0)");
    no_form("(plan (Depth 2) (width 2))");
    no_form("(plan (width 2) (depth 2))");
    no_form("(plan (depth 2))");
    no_form("(plan (depth 2) (width 2) (width 2))");
    no_form("(starts)");
    no_form("(star)");
    no_form("(stop)");
    no_form("(views 0)");
    no_form("(pause)");
    no_form("(resume)");
    no_form("(pause 0 1)");
    no_form("(resume 0 1)");
    no_form("(pause (campaign 0))");
    no_form("(Pause 0)");
    no_form("(paused 0)");
    no_form("(closed)");
    no_form("(close 0)");
    no_form("(close (takings 0) (claim 0) (full 0))");
    no_form("(tally 0)");
    no_form("(play (paid 5))");
    no_form("()");
    no_form("start");
    no_form("(start");
    no_form("start)");
    no_form("(start))");
    no_form("((start)");
    no_form("(start)(start)");
}

#[test]
fn odd_bytes() {
    for byte in [0, 9, 10, 11, 13, 127, 128, 160, 255] {
        let mut line = b"(start)".to_vec();
        line.push(byte);
        no_form(&line);
        line.rotate_right(1);
        no_form(&line);
        no_form([b"(view 0".as_slice(), &[byte], b")"].concat());
        no_form([b"(view ".as_slice(), &[byte], b")"].concat());
        no_form([byte]);
    }
    no_form("(start)\n");
    no_form("\n");
    no_form("\u{ff08}start\u{ff09}");
    no_form("(view \u{0661})");
    // The neighbours of the digits.
    no_form("(view /)");
    no_form("(view :)");
    // Length is asked before form, with a byte 10 inside too.
    assert_eq!(read(&[10; 201]), Err(16));
    assert_eq!(read(&[10; 200]), Err(17));
}

#[test]
fn names() {
    no_form("(view 0 0)");
    no_form("(view 1 0)");
    no_form("(view 63 63)");
    no_form("(view 63 0)");
    no_form("(view 0 2 1)");
    no_form("(view 0 1 2 2)");
    no_form("(view 63 64)");
    no_form("(view 64)");
    no_form("(view 100)");
}

/// Records with one number out of range.
fn out_of_range() -> Vec<Record> {
    let mut records = Vec::new();
    for big in [TWELVE + 1, u64::MAX] {
        records.extend([plan(big, 1), plan(1, big)]);
        records.extend([campaign(big, 1), campaign(1, big)]);
    }
    for big in [U32 + 1, TWELVE, u64::MAX] {
        records.extend([Record::Output(play(0, big)), Record::Output(play(big, 0))]);
        records.extend([Record::Pause(big), Record::Resume(big)]);
        records.push(tally(big, [0; 4]));
        records.extend(
            (0..4).map(|i| tally(0, std::array::from_fn(|j| if i == j { big } else { 0 }))),
        );
        records.push(Record::Output(Answer::Refused(big)));
    }
    records.extend([Record::Output(play(64, 0)), tally(64, [0; 4])]);
    records.extend([Record::Pause(64), Record::Resume(64)]);
    records.extend([0, 20].map(|n| Record::Output(Answer::Refused(n))));
    records
}

#[test]
fn writing_out_of_range() {
    for record in out_of_range() {
        let mut buffer = [7; 300];
        assert_eq!(write(&record, &mut buffer), Err(17), "{record:?}");
        assert_eq!(buffer, [7; 300]);
        assert_eq!(write(&record, &mut []), Err(17), "{record:?}");
        let mut out = vec![7];
        assert_eq!(append(&record, &mut out), Err(17));
        assert_eq!(out, [7]);
    }
}

#[test]
fn writing_to_every_buffer_length() {
    let records = [
        Record::Start,
        plan(12, 3),
        campaign(TWELVE, TWELVE),
        Record::View(u64::MAX),
        tally(63, [U32; 4]),
    ];
    for record in records {
        let line = written(&record);
        for length in 0..line.len() + 5 {
            let mut buffer = vec![7; length];
            let result = write(&record, &mut buffer);
            if length < line.len() {
                assert_eq!(result, Err(18));
                assert!(buffer.iter().all(|&b| b == 7));
            } else {
                assert_eq!(result, Ok(line.len()));
                assert_eq!(buffer[..line.len()], line);
                assert!(buffer[line.len()..].iter().all(|&b| b == 7));
            }
        }
    }
}

/// A random record with all numbers in range.
fn record(random: &mut Random) -> Record {
    match random.below(13) {
        0 => plan(random.edged(TWELVE), random.edged(TWELVE)),
        1 => campaign(random.edged(TWELVE), random.edged(TWELVE)),
        2 => Record::Start,
        3 => Record::View(random.next() & random.next()),
        4 => Record::Close,
        5 => Record::Output(Answer::Ok),
        6 => Record::Output(play(random.below(64), random.edged(U32))),
        7 => Record::Output(Answer::Nobody),
        8 => Record::Output(Answer::Refused(random.within(1, 19))),
        9 => closed(
            random.edged(u64::MAX),
            random.edged(u64::MAX),
            random.edged(u64::MAX),
        ),
        10 => Record::Pause(random.below(64)),
        11 => Record::Resume(random.below(64)),
        _ => tally(random.below(64), std::array::from_fn(|_| random.edged(U32))),
    }
}

#[test]
fn random_records_round_trip() {
    let mut random = Random(21);
    for _ in 0..100_000 {
        let record = record(&mut random);
        let line = written(&record);
        assert_eq!(line.last(), Some(&b'\n'));
        assert!(line.len() <= MAX_LINE + 1);
        assert_eq!(read(&line[..line.len() - 1]), Ok(record));
    }
}

/// Replaces, inserts or takes out one byte.
fn damage(line: &mut Vec<u8>, random: &mut Random) {
    let byte = random.pick(b"0123456789 ()avw\n\r\0\xff");
    let place = random.below(line.len() as u64) as usize;
    match random.below(3) {
        0 => line[place] = byte,
        1 => line.insert(place, byte),
        _ => drop(line.remove(place)),
    }
}

#[test]
fn damaged_lines_read_only_as_what_they_say() {
    let mut random = Random(22);
    let mut still_forms = 0;
    for _ in 0..200_000 {
        let mut line = written(&record(&mut random));
        line.pop();
        damage(&mut line, &mut random);
        match read(&line) {
            Ok(record) => {
                still_forms += 1;
                line.push(b'\n');
                assert_eq!(written(&record), line);
            }
            Err(number) => assert_eq!(number, 17),
        }
    }
    assert!(still_forms > 1_000);
}

#[test]
fn cut_lines_are_no_forms() {
    let mut random = Random(23);
    for _ in 0..1_000 {
        let mut line = written(&record(&mut random));
        line.pop();
        for length in 0..line.len() {
            no_form(&line[..length]);
        }
    }
}
