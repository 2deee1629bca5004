//! Every refusal number, the order of the questions, and untouched states.

use crate::common::{filling, play, running};
use second::lines::{read, write};
use second::{Answer, Day, Phase, Record};

/// One call with its arguments.
#[derive(Clone, Copy, Debug)]
enum Call {
    Open(u64, u64),
    Add(u64, u64),
    Start,
    View(u64),
    Pause(u64),
    Resume(u64),
    Tally(u64),
    Close,
}

fn call(day: Day, call: Call) -> (Day, Answer) {
    match call {
        Call::Open(depth, width) => day.open(depth, width),
        Call::Add(price, budget) => day.add(price, budget),
        Call::Start => day.start(),
        Call::View(set) => day.view(set),
        Call::Pause(n) => day.pause(n),
        Call::Resume(n) => day.resume(n),
        Call::Tally(n) => day.tally(n),
        Call::Close => day.close(),
    }
}

/// The call is refused with this number and hands the state back unchanged.
fn refused(day: &Day, c: Call, number: u64) {
    let (same, answer) = call(day.clone(), c);
    assert_eq!(answer, Answer::Refused(number), "{c:?}");
    assert_eq!(same, *day, "{c:?}");
}

const GOOD_CALLS: [Call; 8] = [
    Call::Open(2, 2),
    Call::Add(5, 10),
    Call::Start,
    Call::View(1),
    Call::Pause(0),
    Call::Resume(0),
    Call::Tally(0),
    Call::Close,
];

#[test]
fn unsound_states_give_1_to_every_operation() {
    for phase in [Phase::Filling, Phase::Running, Phase::Closed(1)] {
        let mut day = filling(2, 2, &[(5, 10)]);
        day.phase = phase;
        day.views = 4_097;
        for c in GOOD_CALLS {
            refused(&day, c, 1);
        }
        refused(&day, Call::Open(0, 0), 1);
        refused(&day, Call::Add(0, 0), 1);
        refused(&day, Call::View(0), 1);
        refused(&day, Call::Pause(64), 1);
        refused(&day, Call::Resume(64), 1);
        refused(&day, Call::Tally(64), 1);
    }
}

#[test]
fn opening_outside_closed() {
    for day in [filling(2, 2, &[]), running(2, 2, &[])] {
        refused(&day, Call::Open(2, 2), 2);
        refused(&day, Call::Open(0, 0), 2);
    }
}

#[test]
fn opening_with_bad_numbers() {
    let day = Day::blank();
    refused(&day, Call::Open(0, 99), 3);
    refused(&day, Call::Open(33, 0), 3);
    refused(&day, Call::Open(32, 0), 4);
    refused(&day, Call::Open(32, 17), 4);
    refused(&day, Call::Open(32, 3), 5);
}

#[test]
fn adding_and_starting_outside_filling() {
    let (closed, _) = running(2, 2, &[(5, 10)]).close();
    for day in [Day::blank(), running(2, 2, &[(5, 10)]), closed] {
        refused(&day, Call::Add(5, 10), 6);
        refused(&day, Call::Add(0, 0), 6);
        refused(&day, Call::Start, 6);
    }
}

#[test]
fn adding_a_sixty_fifth_campaign() {
    let day = filling(2, 2, &[(1, 1); 64]);
    refused(&day, Call::Add(1, 1), 7);
    refused(&day, Call::Add(0, 0), 7);
    assert_eq!(day.start().1, Answer::Ok);
}

#[test]
fn adding_with_bad_numbers() {
    let day = filling(2, 2, &[(1, 1_999_999_999)]);
    refused(&day, Call::Add(0, 5), 8);
    refused(&day, Call::Add(1_000_001, 0), 8);
    refused(&day, Call::Add(2, 1), 9);
    refused(&day, Call::Add(1, 2_000_000_001), 9);
    refused(&day, Call::Add(1, 2), 10);
    refused(&day, Call::Add(1, 2_000_000_000), 10);
    assert_eq!(day.add(1, 1).1, Answer::Ok);
}

#[test]
fn views_and_closing_outside_running() {
    let (closed, _) = running(2, 2, &[(5, 10)]).close();
    for day in [Day::blank(), filling(2, 2, &[(5, 10)]), closed] {
        refused(&day, Call::View(1), 11);
        refused(&day, Call::View(0), 11);
        refused(&day, Call::View(u64::MAX), 11);
        refused(&day, Call::Close, 11);
    }
}

#[test]
fn pausing_and_resuming_outside_running() {
    let (paused, _) = running(2, 2, &[(5, 10)]).pause(0);
    let (closed, _) = paused.close();
    for day in [Day::blank(), filling(2, 2, &[(5, 10)]), closed] {
        for n in [0, 1, 63, 64, u64::MAX] {
            refused(&day, Call::Pause(n), 11);
            refused(&day, Call::Resume(n), 11);
        }
    }
}

#[test]
fn pausing_and_resuming_outside_the_plan() {
    let (paused, _) = running(2, 2, &[(5, 10)]).pause(0);
    for day in [running(2, 2, &[(5, 10)]), paused] {
        for n in [1, 63, 64, 65, 128, 1 << 32, u64::MAX] {
            refused(&day, Call::Pause(n), 15);
            refused(&day, Call::Resume(n), 15);
        }
    }
    let full = running(2, 2, &[(1, 1); 64]);
    refused(&full, Call::Pause(64), 15);
    refused(&full, Call::Resume(64), 15);
    refused(&running(2, 2, &[]), Call::Pause(0), 15);
    assert_eq!(full.pause(63).1, Answer::Ok);
}

#[test]
fn views_of_paused_names() {
    let day = running(2, 1, &[(5, 10), (3, 6), (2, 2)]);
    let (day, _) = day.pause(1);
    // Question 13 still sees paused names; question 14 does not.
    refused(&day, Call::View(0b1010), 13);
    refused(&day, Call::View(0b101), 14);
    refused(&day, Call::View(0b111), 14);
    assert_eq!(day.clone().view(0b011).1, play(0, 5));
    assert_eq!(day.clone().view(0b010).1, Answer::Nobody);
    let (day, _) = day.resume(1);
    refused(&day, Call::View(0b011), 14);
}

#[test]
fn pauses_do_not_lift_the_other_questions() {
    let mut day = running(1, 1, &[(1, 3)]);
    day.views = 4_096;
    let (day, answer) = day.pause(0);
    assert_eq!(answer, Answer::Ok);
    refused(&day, Call::View(1), 12);
    refused(&day, Call::View(0), 12);
    let (day, _) = day.close();
    refused(&day, Call::View(1), 11);
}

#[test]
fn view_after_the_last() {
    let mut day = running(1, 1, &[(1, 3)]);
    for i in 0..4_096 {
        let (next, answer) = day.view(1);
        let expected = if i < 3 { play(0, 1) } else { Answer::Nobody };
        assert_eq!(answer, expected);
        day = next;
    }
    refused(&day, Call::View(1), 12);
    refused(&day, Call::View(2), 12);
    refused(&day, Call::View(0), 12);
    let (day, _) = day.close();
    assert_eq!(day.views, 4_096);
    assert_eq!(day.campaigns[0].named, 4_096);
    assert!(day.is_sound());
}

#[test]
fn view_with_bad_names() {
    let day = running(2, 2, &[(5, 10), (3, 6), (2, 2)]);
    refused(&day, Call::View(1 << 3), 13);
    refused(&day, Call::View(1 << 63), 13);
    refused(&day, Call::View(0b1111), 13);
    refused(&day, Call::View(u64::MAX), 13);
    refused(&day, Call::View(0b111), 14);
    refused(&running(2, 2, &[]), Call::View(1), 13);
    refused(&running(8, 16, &[(1, 1); 64]), Call::View(u64::MAX), 14);
    refused(&running(8, 16, &[(1, 1); 64]), Call::View(0x1FFFF), 14);
    assert_eq!(running(8, 16, &[(1, 1); 64]).view(0xFFFF).1, play(0, 1));
}

#[test]
fn view_of_nobody_after_the_last() {
    // With no campaigns at all, only such views fill the day.
    for plan in [&[][..], &[(5, 10)]] {
        let mut day = running(2, 2, plan);
        for _ in 0..4_096 {
            let (next, answer) = day.view(0);
            assert_eq!(answer, Answer::Nobody);
            day = next;
        }
        assert_eq!(day.views, 4_096);
        refused(&day, Call::View(0), 12);
        refused(&day, Call::View(1), 12);
    }
}

#[test]
fn tally_outside_the_plan() {
    for day in [filling(2, 2, &[(5, 10)]), running(2, 2, &[(5, 10)])] {
        refused(&day, Call::Tally(1), 15);
        refused(&day, Call::Tally(u64::MAX), 15);
        refused(&day, Call::Tally(1 << 32), 15);
    }
    refused(&Day::blank(), Call::Tally(0), 15);
    let full = running(2, 2, &[(1, 1); 64]);
    refused(&full, Call::Tally(64), 15);
}

#[test]
fn tally_changes_nothing_in_any_phase() {
    let (played, _) = running(2, 2, &[(5, 10), (3, 6)]).view(0b11);
    let (closed, _) = played.clone().close();
    for day in [played, closed] {
        let (same, answer) = day.clone().tally(1);
        let (campaign, plays, turns, age, named) = (1, 0, 0, 1, 1);
        let expected = Answer::Tally {
            campaign,
            plays,
            turns,
            age,
            named,
        };
        assert_eq!(answer, expected);
        assert_eq!(same, day);
    }
}

#[test]
fn reading_and_writing() {
    assert_eq!(read(&[b' '; 201]), Err(16));
    assert_eq!(read(&[b' '; 200]), Err(17));
    let mut buffer = [7; 4];
    assert_eq!(write(&Record::Output(Answer::Ok), &mut buffer), Err(18));
    assert_eq!(buffer, [7; 4]);
    // The range is asked before the buffer.
    let record = Record::Output(Answer::Refused(0));
    assert_eq!(write(&record, &mut buffer), Err(17));
    assert_eq!(buffer, [7; 4]);
}
