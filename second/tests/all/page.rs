//! The station's page.

use crate::common::{entry, filling, ok, play, running, Random, LISTING};
use second::page::{write, LINE, MAX_PAGE};
use second::{Answer, Day, Phase};
use std::io::Write;
use std::process::{Command, Stdio};

const LISTING_PAGE: &str = concat!(
    "  0     2       0.05          0.10     4\n",
    "  1     2       0.03          0.06     4\n",
    "total                         0.16      \n",
);

const BLANK_PAGE: &str = "total                         0.00      \n";

/// The page as text; the rest of the buffer keeps its bytes.
#[track_caller]
fn page(day: &Day) -> String {
    let mut buffer = [7; MAX_PAGE + 9];
    let length = write(day, &mut buffer).unwrap();
    assert_eq!(length, LINE * (day.count as usize + 1));
    assert!(buffer[length..].iter().all(|&b| b == 7));
    String::from_utf8(buffer[..length].to_vec()).unwrap()
}

/// The state at the end of the listing.
fn listed() -> Day {
    let day = running(2, 2, &[(5, 10), (3, 6)]);
    let views = [0b11, 0b11, 0b11, 0b01, 0b10];
    let day = views.iter().fold(day, |day, &set| day.view(set).0);
    day.close().0
}

/// What the program prints for an input.
fn printed(input: &[u8]) -> String {
    let mut command = Command::new(env!("CARGO_BIN_EXE_second_page"));
    command.stdin(Stdio::piped()).stdout(Stdio::piped());
    let mut child = command.spawn().unwrap();
    child.stdin.take().unwrap().write_all(input).unwrap();
    let output = child.wait_with_output().unwrap();
    assert!(output.status.success());
    String::from_utf8(output.stdout).unwrap()
}

#[test]
fn page_of_the_listing() {
    assert_eq!(page(&listed()), LISTING_PAGE);
}

#[test]
fn page_without_campaigns() {
    assert_eq!(page(&Day::blank()), BLANK_PAGE);
    assert_eq!(page(&filling(2, 2, &[])), BLANK_PAGE);
    assert_eq!(page(&running(2, 2, &[]).view(0).0), BLANK_PAGE);
}

#[test]
fn page_in_any_phase() {
    let text = "  0     0       1.00          0.00     0\n";
    let day = filling(2, 2, &[(100, 200)]);
    assert_eq!(page(&day), format!("{text}{BLANK_PAGE}"));
    let (day, _) = day.start();
    assert_eq!(page(&day), format!("{text}{BLANK_PAGE}"));
    let (day, _) = day.close();
    assert_eq!(page(&day), format!("{text}{BLANK_PAGE}"));
}

/// A running state of width 1 with one campaign that has won all its views.
fn won(price: u64, budget: u64, plays: u64) -> Day {
    let mut day = running(1, 1, &[(price, budget)]);
    day.views = 4_096;
    day.campaigns[0] = entry(price, budget, [plays, plays, 0, 4_096]);
    day
}

#[test]
fn prices_and_paid_sums() {
    let cases = [
        (1, 1, "      0.01          0.01"),
        (9, 1, "      0.09          0.09"),
        (10, 1, "      0.10          0.10"),
        (99, 1, "      0.99          0.99"),
        (99, 2, "      0.99          1.98"),
        (100, 1, "      1.00          1.00"),
        (101, 10, "      1.01         10.10"),
        (1_000, 1, "     10.00         10.00"),
        (10_050, 0, "    100.50          0.00"),
        (999_999, 2_000, "   9999.99   19999980.00"),
        (1_000_000, 2_000, "  10000.00   20000000.00"),
        (488_281, 4_096, "   4882.81   19999989.76"),
    ];
    for (price, plays, figures) in cases {
        let text = page(&won(price, 2_000_000_000, plays));
        let paid = &figures[10..];
        let expected = format!(
            "  0{plays:6} {figures}  4096\ntotal{:15}{paid}{:6}\n",
            "", ""
        );
        assert_eq!(text, expected);
    }
}

#[test]
fn greatest_figures_stay_in_their_columns() {
    let day = running(8, 16, &[(1, 31_250_000); 64]);
    let text = page(&day);
    assert_eq!(text.len(), MAX_PAGE);
    let line = " 63     0       0.01          0.00     0";
    assert_eq!(text.lines().nth(63), Some(line));
    let text = page(&won(1_000_000, 2_000_000_000, 2_000));
    let expected =
        "  0  2000   10000.00   20000000.00  4096\ntotal                  20000000.00      \n";
    assert_eq!(text, expected);
}

#[test]
fn every_buffer_length() {
    for day in [Day::blank(), listed()] {
        let text = page(&day);
        for length in 0..text.len() + 5 {
            let mut buffer = vec![7; length];
            let result = write(&day, &mut buffer);
            if length < text.len() {
                assert_eq!(result, Err(18));
                assert!(buffer.iter().all(|&b| b == 7));
            } else {
                assert_eq!(result, Ok(text.len()));
                assert_eq!(buffer[..text.len()], *text.as_bytes());
                assert!(buffer[text.len()..].iter().all(|&b| b == 7));
            }
        }
    }
}

/// A day with views before and during pauses: campaign 0 plays and is then
/// paused for two views that name it, campaign 2 is paused all along.
fn with_pauses() -> Day {
    let day = running(2, 2, &[(5, 10), (3, 6), (100, 100)]);
    let (day, answer) = ok(day.pause(2)).view(0b011);
    assert_eq!(answer, play(0, 5));
    let (day, answer) = ok(day.pause(0)).view(0b111);
    assert_eq!(answer, play(1, 3));
    let (day, answer) = ok(day.pause(0)).view(0b101);
    assert_eq!(answer, Answer::Nobody);
    assert_eq!((day.paused, day.views), (0b101, 3));
    day
}

/// Named counts the views that found the campaign unpaused.
const PAUSED_PAGE: &str = concat!(
    "  0     1       0.05          0.05     1\n",
    "  1     1       0.03          0.03     2\n",
    "  2     0       1.00          0.00     0\n",
    "total                         0.08      \n",
);

#[test]
fn paused_campaigns_keep_their_lines_and_marks_do_not_show() {
    let running = with_pauses();
    let (closed, _) = running.clone().close();
    assert_eq!(closed.phase, Phase::Closed(8));
    assert_eq!(page(&running), PAUSED_PAGE);
    assert_eq!(page(&closed), PAUSED_PAGE);
    // No set of marks moves a byte of the page, in either phase.
    for paused in 0..8 {
        for day in [&running, &closed] {
            let marked = Day {
                paused,
                ..day.clone()
            };
            assert_eq!(page(&marked), PAUSED_PAGE, "{paused:b}");
        }
    }
}

#[test]
fn page_after_a_resume() {
    let day = ok(with_pauses().resume(0));
    assert_eq!(page(&day), PAUSED_PAGE);
    let (day, answer) = day.view(0b101);
    assert_eq!(answer, play(0, 5));
    let expected = PAUSED_PAGE
        .replace(
            "0     1       0.05          0.05     1",
            "0     2       0.05          0.10     2",
        )
        .replace("0.08", "0.13");
    assert_eq!(page(&day), expected);
}

#[test]
fn page_of_a_full_plan_all_paused() {
    let day = running(8, 16, &[(1, 31_250_000); 64]);
    let text = page(&day);
    let paused = (0..64).fold(day, |day, n| ok(day.pause(n)));
    assert_eq!(paused.paused, u64::MAX);
    assert_eq!(page(&paused), text);
    // A view of all of them is accepted and names none.
    let (viewed, answer) = paused.view(u64::MAX);
    assert_eq!((answer, viewed.views), (Answer::Nobody, 1));
    assert_eq!(page(&viewed), text);
    assert_eq!(text.len(), MAX_PAGE);
}

/// The page gives 1 for any buffer, which keeps its bytes.
#[track_caller]
fn refused_first(day: &Day) {
    for length in [0, LINE - 1, LINE, 122, 123, 4_000] {
        let mut buffer = vec![7; length];
        assert_eq!(write(day, &mut buffer), Err(1), "{:b}", day.paused);
        assert!(buffer.iter().all(|&b| b == 7));
    }
}

#[test]
fn unsound_states_are_refused_first() {
    let mut states = [listed(), listed(), listed()];
    states[0].phase = Phase::Closed(17);
    states[1].count = u64::MAX;
    states[2].campaigns[0].plays = u64::MAX;
    states.iter().for_each(refused_first);
}

/// The marks and nothing else decide: without them the state has its page,
/// and with them it is refused.
#[track_caller]
fn refused_for_its_marks(mut day: Day, marks: &[u64]) {
    page(&day);
    for &paused in marks {
        day.paused = paused;
        refused_first(&day);
    }
}

#[test]
fn unsound_marks_are_refused_first() {
    // In Filling any mark, of a campaign in the plan or past the last.
    let marks = [0b01, 0b10, 0b11, 0b100, 1 << 63, u64::MAX];
    refused_for_its_marks(filling(2, 2, &[(5, 10), (3, 6)]), &marks);
    let full = filling(8, 16, &[(1, 31_250_000); 64]);
    refused_for_its_marks(full, &[1, 1 << 63, u64::MAX]);
    // Later a mark past the last, alone or beside marks of the plan.
    let beyond = [0b100, 0b111, 1 << 31, 1 << 32, 1 << 63, u64::MAX];
    refused_for_its_marks(running(2, 2, &[(5, 10), (3, 6)]), &beyond);
    refused_for_its_marks(listed(), &beyond);
    for day in [Day::blank(), filling(2, 2, &[]), running(2, 2, &[])] {
        refused_for_its_marks(day, &[1, 2, 1 << 63, u64::MAX]);
    }
    let most = running(8, 16, &[(1, 1); 63]);
    refused_for_its_marks(most, &[1 << 63, u64::MAX]);
}

/// Number, plays, price, paid and named of each campaign, then the takings.
type Figures = (Vec<[u64; 5]>, u64);

/// Reads a page by its columns alone.
fn read_back(text: &str) -> Figures {
    let figure = |line: &str, first: usize, last: usize| -> u64 {
        line[first - 1..last]
            .trim_start()
            .replace('.', "")
            .parse()
            .unwrap()
    };
    let (rows, last) = text.split_at(text.len() - LINE);
    assert_eq!(last[..20], *"total               ");
    assert_eq!((&last[31..32], &last[34..]), (".", "      \n"));
    let row = |line: &str| {
        assert_eq!(line.len(), 40);
        assert_eq!((&line[17..18], &line[31..32]), (".", "."));
        [(1, 3), (4, 9), (10, 20), (21, 34), (35, 40)].map(|(a, b)| figure(line, a, b))
    };
    (rows.lines().map(row).collect(), figure(last, 21, 34))
}

/// The figures that a page shows.
fn figures(day: &Day) -> Figures {
    let row = |i: usize| {
        let c = &day.campaigns[i];
        [i as u64, c.plays, c.price, c.price * c.plays, c.named]
    };
    let takings = day.ledger().unwrap().takings;
    ((0..day.count as usize).map(row).collect(), takings)
}

/// A random day of up to 64 campaigns, some of them paused for a while, and how
/// many views found each campaign named and unpaused.
fn some_day(random: &mut Random) -> (Day, [u64; 64]) {
    let count = random.pick(&[1, 2, 9, 10, 11, 64]);
    let dearest = random.pick(&[1, 20, 300, 500_000]);
    let campaigns: Vec<(u64, u64)> = (0..count)
        .map(|_| {
            let price = random.within(1, dearest);
            (price, price * random.within(1, 60))
        })
        .collect();
    let mut day = running(8, 16, &campaigns);
    let (mut paused, mut named) = ([false; 64], [0; 64]);
    for _ in 0..random.below(300) {
        let (n, mark) = (random.below(count), random.below(2) == 0);
        day = ok(if mark { day.pause(n) } else { day.resume(n) });
        paused[n as usize] = mark;
        let set = (0..16).fold(0, |set, _| set | 1 << random.below(count));
        day = day.view(set).0;
        for i in (0..64).filter(|&i| set >> i & 1 == 1 && !paused[i]) {
            named[i] += 1;
        }
    }
    (day, named)
}

#[test]
fn figures_are_read_back() {
    let mut random = Random(51);
    let mut with_marks = 0;
    for _ in 0..2_000 {
        let (day, named) = some_day(&mut random);
        let (rows, takings) = read_back(&page(&day));
        assert!(rows.iter().zip(named).all(|(row, named)| row[4] == named));
        assert_eq!((rows, takings), figures(&day));
        with_marks += u64::from(day.paused != 0);
    }
    assert!(with_marks > 1_000, "{with_marks}");
}

#[test]
fn program_prints_the_page_at_the_end() {
    assert_eq!(printed(LISTING.as_bytes()), LISTING_PAGE);
    assert_eq!(printed(LISTING.trim_end().as_bytes()), LISTING_PAGE);
    assert_eq!(printed(b""), BLANK_PAGE);
    let long = "x".repeat(1_000);
    let noise = format!("{LISTING}\n\n(view 0)\n{long}\n(ok)\n");
    assert_eq!(printed(noise.as_bytes()), LISTING_PAGE);
    let next = format!("{LISTING}(plan (depth 1) (width 1))\n(campaign (price 250) (budget 250))");
    let expected = format!("  0     0       2.50          0.00     0\n{BLANK_PAGE}");
    assert_eq!(printed(next.as_bytes()), expected);
}

#[test]
fn program_prints_the_page_of_paused_campaigns() {
    let day = "(plan (depth 2) (width 2))\n(campaign (price 5) (budget 10))\n\
        (campaign (price 3) (budget 6))\n(campaign (price 100) (budget 100))\n(start)\n\
        (pause 2)\n(view 0 1)\n(pause 0)\n(view 0 1 2)\n(pause 0)\n(pause 3)\n(view 0 2)\n";
    assert_eq!(printed(day.as_bytes()), PAUSED_PAGE);
    for end in [
        "(close)",
        "(resume 0)\n(resume 2)",
        "(pause 1)\n(close)\n(resume 0)",
    ] {
        assert_eq!(printed(format!("{day}{end}\n").as_bytes()), PAUSED_PAGE);
    }
}
