//! The cases by the limits, and the listing.

use crate::common::{
    answers, entry, filling, max_depth, ok, play, running, LISTING, LISTING_ANSWERS,
};
use second::{Answer, Day, Phase};

#[test]
fn depths_and_widths() {
    let cases = [
        (32, 2, Answer::Ok),
        (20, 3, Answer::Ok),
        (21, 3, Answer::Refused(5)),
        (8, 16, Answer::Ok),
        (9, 16, Answer::Refused(5)),
        (33, 1, Answer::Refused(3)),
        (0, 0, Answer::Refused(3)),
        (1, 0, Answer::Refused(4)),
        (1, 17, Answer::Refused(4)),
        (1, 1, Answer::Ok),
        (1, 16, Answer::Ok),
        (32, 1, Answer::Ok),
        (32, 3, Answer::Refused(5)),
        (u64::MAX, u64::MAX, Answer::Refused(3)),
        (1, u64::MAX, Answer::Refused(4)),
    ];
    for (depth, width, expected) in cases {
        let (day, answer) = Day::blank().open(depth, width);
        assert_eq!(answer, expected, "depth {depth} width {width}");
        if answer != Answer::Ok {
            assert_eq!(day, Day::blank());
        }
    }
}

#[test]
fn greatest_depth_of_each_width() {
    for width in 1..=16 {
        let deepest = max_depth(width);
        assert_eq!(Day::blank().open(deepest, width).1, Answer::Ok);
        let expected = if deepest == 32 { 3 } else { 5 };
        let (_, answer) = Day::blank().open(deepest + 1, width);
        assert_eq!(answer, Answer::Refused(expected));
    }
}

#[test]
fn prices_and_budgets() {
    let cases = [
        (5, 4, Answer::Refused(9)),
        (5, 5, Answer::Ok),
        (0, 0, Answer::Refused(8)),
        (1_000_000, 1_000_000, Answer::Ok),
        (1_000_001, 1_000_001, Answer::Refused(8)),
        (1, 2_000_000_000, Answer::Ok),
        (1, 2_000_000_001, Answer::Refused(9)),
        (1, 0, Answer::Refused(9)),
        (u64::MAX, u64::MAX, Answer::Refused(8)),
        (1, u64::MAX, Answer::Refused(9)),
    ];
    for (price, budget, expected) in cases {
        let (_, answer) = filling(2, 2, &[]).add(price, budget);
        assert_eq!(answer, expected, "price {price} budget {budget}");
    }
}

#[test]
fn budgets_together() {
    let half = 1_000_000_000;
    let day = filling(2, 2, &[(1, half), (1, half)]);
    let (same, answer) = day.clone().add(1, 1);
    assert_eq!(answer, Answer::Refused(10));
    assert_eq!(same, day);
    // The budget's own range is asked before the sum.
    assert_eq!(day.add(2, 1).1, Answer::Refused(9));
}

#[test]
fn second_view_goes_to_the_older_campaign() {
    let day = running(2, 2, &[(5, 10), (3, 6)]);
    let (day, first) = day.view(0b11);
    assert_eq!(first, play(0, 5));
    // Scores 5 × 1 and 3 × 2.
    let (_, second) = day.view(0b11);
    assert_eq!(second, play(1, 3));
}

#[test]
fn fourth_view_finds_nobody() {
    let day = running(2, 2, &[(5, 10), (3, 6)]);
    let day = (0..3).fold(day, |day, _| day.view(0b11).0);
    assert_eq!(day.campaigns[1], entry(3, 6, [1, 1, 1, 3]));
    let (day, answer) = day.view(0b01);
    assert_eq!(answer, Answer::Nobody);
    assert_eq!(day.campaigns[0], entry(5, 10, [2, 2, 0, 4]));
    assert_eq!(day.views, 4);
}

#[test]
fn view_of_nobody_is_counted_and_changes_nothing_else() {
    let (day, _) = running(2, 2, &[(5, 10), (3, 6)]).view(0b11);
    let (after, answer) = day.clone().view(0);
    assert_eq!(answer, Answer::Nobody);
    let mut expected = day.clone();
    expected.views = 2;
    assert_eq!(after, expected);
    assert!(after.is_sound());
    assert_eq!(after.ledger(), day.ledger());
    // The next view is answered as if nobody had lifted in between.
    assert_eq!(after.view(0b11).1, day.view(0b11).1);
}

#[test]
fn paused_campaign_is_treated_as_not_named() {
    let day = ok(running(2, 2, &[(5, 10), (3, 6)]).pause(0));
    let (day, answer) = day.view(0b11);
    assert_eq!(answer, play(1, 3));
    assert_eq!(day.campaigns[0], entry(5, 10, [0, 0, 0, 0]));
    assert_eq!(day.campaigns[1], entry(3, 6, [1, 1, 0, 1]));
    let (day, answer) = day.view(0b01);
    assert_eq!(answer, Answer::Nobody);
    assert_eq!(day.campaigns[0], entry(5, 10, [0, 0, 0, 0]));
    assert_eq!(day.views, 2);
    let (day, answer) = ok(day.resume(0)).view(0b11);
    assert_eq!(answer, play(0, 5));
    assert_eq!(day.campaigns[0], entry(5, 10, [1, 1, 0, 1]));
    assert_eq!(day.campaigns[1], entry(3, 6, [1, 1, 1, 2]));
}

#[test]
fn a_pause_keeps_the_age() {
    let (day, _) = running(3, 2, &[(5, 10), (3, 6)]).view(0b11);
    assert_eq!(day.campaigns[1].age, 1);
    let (day, _) = ok(day.pause(1)).view(0b11);
    assert_eq!(day.campaigns[1], entry(3, 6, [0, 0, 1, 1]));
    let (day, _) = ok(day.resume(1)).view(0b10);
    assert_eq!(day.campaigns[1], entry(3, 6, [1, 1, 0, 2]));
}

#[test]
fn marks_are_set_and_cleared_also_twice() {
    let day = running(2, 2, &[(1, 1); 64]);
    assert_eq!(day.paused, 0);
    for n in [0, 1, 31, 32, 63] {
        let once = ok(day.clone().pause(n));
        assert_eq!(once.paused, 1 << n);
        assert_eq!(ok(once.clone().pause(n)), once);
        let cleared = ok(once.resume(n));
        assert_eq!(cleared, day);
        assert_eq!(ok(cleared.resume(n)), day);
    }
    let all = (0..64).fold(day, |day, n| ok(day.pause(n)));
    assert_eq!(all.paused, u64::MAX);
    // All are named and paused: accepted and counted, whatever the width.
    let (after, answer) = all.clone().view(u64::MAX);
    assert_eq!((answer, after.views), (Answer::Nobody, 1));
    assert_eq!(after.campaigns, all.campaigns);
}

#[test]
fn marks_stay_at_closing_and_end_at_opening() {
    let day = ok(running(2, 2, &[(5, 10), (3, 6)]).pause(1));
    let (closed, _) = day.close();
    assert_eq!(closed.paused, 0b10);
    assert!(closed.is_sound());
    assert_eq!(ok(closed.open(2, 2)), filling(2, 2, &[]));
}

#[test]
fn spent_campaigns_can_be_paused() {
    let (day, _) = running(2, 2, &[(5, 5)]).view(1);
    let (day, answer) = ok(day.pause(0)).view(1);
    assert_eq!(answer, Answer::Nobody);
    assert_eq!(day.campaigns[0].named, 1);
}

#[test]
fn equal_scores_go_to_the_lower_number() {
    let (day, answer) = running(2, 2, &[(4, 8), (4, 8)]).view(0b11);
    assert_eq!(answer, play(0, 4));
    assert_eq!(day.campaigns[1].age, 1);
}

#[test]
fn depth_one_ends_the_turn_in_the_same_view() {
    let (day, answer) = running(1, 2, &[(2, 4), (1, 2)]).view(0b11);
    assert_eq!(answer, play(0, 2));
    assert_eq!(day.campaigns[0], entry(2, 4, [1, 1, 0, 1]));
    assert_eq!(day.campaigns[1], entry(1, 2, [0, 1, 0, 1]));
}

#[test]
fn long_numerals_are_refused_by_range() {
    for long in ["4294967296", "4294967297", "4294967295", "999999999999"] {
        let input = format!(
            "(plan (depth {long}) (width 1))\n(plan (depth 1) (width {long}))\n\
            (plan (depth 1) (width 1))\n(campaign (price {long}) (budget {long}))\n\
            (campaign (price 1) (budget {long}))\n"
        );
        let expected = "(refused 3)\n(refused 4)\n(ok)\n(refused 8)\n(refused 9)\n";
        assert_eq!(answers(input.as_bytes()), expected.as_bytes());
    }
}

#[test]
fn long_numerals_come_after_the_questions_before() {
    let long = "999999999999";
    let input = format!(
        "(campaign (price {long}) (budget {long}))\n(plan (depth 1) (width 1))\n\
        (plan (depth {long}) (width {long}))\n(campaign (price 0) (budget {long}))\n"
    );
    let expected = "(refused 6)\n(ok)\n(refused 2)\n(refused 8)\n";
    assert_eq!(answers(input.as_bytes()), expected.as_bytes());
}

#[test]
fn thirteen_digits_are_no_form() {
    let input = b"(plan (depth 1000000000000) (width 1))\n(plan (depth 1) (width 1000000000000))\n\
        (campaign (price 1000000000000) (budget 1))\n(campaign (price 1) (budget 1000000000000))\n\
        (view 64)\n(view 4294967296)\n";
    assert_eq!(answers(input), "(refused 17)\n".repeat(6).as_bytes());
}

#[test]
fn listing() {
    let out = answers(LISTING.as_bytes());
    assert_eq!(String::from_utf8(out).unwrap(), LISTING_ANSWERS);
}

#[test]
fn blank_state() {
    let day = Day::blank();
    assert!(day.is_sound());
    assert_eq!(day.phase, Phase::Closed(0));
    assert_eq!((day.depth, day.width, day.count, day.views), (1, 1, 0, 0));
    assert_eq!(day.paused, 0);
    assert!(day.campaigns.iter().all(|c| *c == entry(0, 0, [0; 4])));
}

#[test]
fn opening_clears_the_day_before() {
    let (day, _) = running(2, 2, &[(5, 10)]).view(1);
    let (day, answer) = day.close();
    let (takings, claim, full) = (5, 15, 20);
    assert_eq!(
        answer,
        Answer::Closed {
            takings,
            claim,
            full
        }
    );
    assert_eq!(day.phase, Phase::Closed(5));
    assert_eq!(day.views, 1);
    assert_eq!(ok(day.open(3, 4)), filling(3, 4, &[]));
}

#[test]
fn day_without_campaigns() {
    let day = running(2, 2, &[]);
    let (day, answer) = day.view(0);
    assert_eq!((answer, day.views), (Answer::Nobody, 1));
    let (day, answer) = day.close();
    let (takings, claim, full) = (0, 0, 0);
    assert_eq!(
        answer,
        Answer::Closed {
            takings,
            claim,
            full
        }
    );
    assert_eq!(day.tally(0).1, Answer::Refused(15));
}

#[test]
fn left_over_cents_stay_unspent() {
    let day = running(1, 1, &[(5, 14)]);
    let (day, first) = day.view(1);
    let (day, second) = day.view(1);
    let (day, third) = day.view(1);
    assert_eq!(
        [first, second, third],
        [play(0, 5), play(0, 5), Answer::Nobody]
    );
    assert_eq!(day.campaigns[0], entry(5, 14, [2, 2, 0, 3]));
}

#[test]
fn width_one_plays_on_a_score_of_zero() {
    let (day, answer) = running(32, 1, &[(7, 7)]).view(1);
    assert_eq!(answer, play(0, 7));
    assert_eq!(day.ledger().unwrap().claim, 7);
    assert_eq!(day.ledger().unwrap().full, 7);
}

#[test]
fn spent_campaigns_do_not_age() {
    let day = running(3, 2, &[(9, 9), (1, 10)]);
    let (day, _) = day.view(0b11);
    assert_eq!(day.campaigns[1].age, 1);
    let (day, answer) = day.view(0b11);
    assert_eq!(answer, play(1, 1));
    assert_eq!(day.campaigns[0], entry(9, 9, [1, 1, 0, 2]));
}

#[test]
fn campaign_63_can_play() {
    let day = running(8, 16, &[(1, 1); 64]);
    let (day, answer) = day.view(1 << 63);
    assert_eq!(answer, play(63, 1));
    assert_eq!(day.view(0xFFFF << 48).1, play(48, 1));
}

#[test]
fn greatest_scores_and_totals_are_exact() {
    let mut day = running(32, 2, &[(1_000_000, 1_000_000_000), (999_999, 999_999_000)]);
    for _ in 0..2_000 {
        day = day.view(0b11).0;
    }
    let (day, answer) = day.close();
    let power = 1u128 << 32;
    let takings: u128 = 1_000_000_000 + 999_999_000;
    let claims: u128 = day.campaigns[..2]
        .iter()
        .map(|c| u128::from(c.price) * u128::from(c.turns) * (power - 1))
        .sum();
    assert_eq!(
        answer,
        Answer::Closed {
            takings: takings as u64,
            claim: claims as u64,
            full: (power * takings) as u64
        }
    );
}
