//! A whole day through the library: the listing of document 01, line by line, with its answers on standard output.

use std::io::Write;

mod c {
    extern "C" {
        pub fn wezghuli_blank(head: *mut u64, terms: *mut u32, counts: *mut u16);
        pub fn wezghuli_open(
            head: *mut u64,
            terms: *mut u32,
            counts: *mut u16,
            depth: u64,
            width: u64,
            answer: *mut u64,
        ) -> u64;
        pub fn wezghuli_add(
            head: *mut u64,
            terms: *mut u32,
            counts: *mut u16,
            price: u64,
            budget: u64,
            answer: *mut u64,
        ) -> u64;
        pub fn wezghuli_start(
            head: *mut u64,
            terms: *mut u32,
            counts: *mut u16,
            answer: *mut u64,
        ) -> u64;
        pub fn wezghuli_view(
            head: *mut u64,
            terms: *mut u32,
            counts: *mut u16,
            set: u64,
            answer: *mut u64,
        ) -> u64;
        pub fn wezghuli_tally(
            head: *mut u64,
            terms: *mut u32,
            counts: *mut u16,
            campaign: u64,
            answer: *mut u64,
        ) -> u64;
        pub fn wezghuli_pause(
            head: *mut u64,
            terms: *mut u32,
            counts: *mut u16,
            campaign: u64,
            answer: *mut u64,
        ) -> u64;
        pub fn wezghuli_resume(
            head: *mut u64,
            terms: *mut u32,
            counts: *mut u16,
            campaign: u64,
            answer: *mut u64,
        ) -> u64;
        pub fn wezghuli_close(
            head: *mut u64,
            terms: *mut u32,
            counts: *mut u16,
            answer: *mut u64,
        ) -> u64;
        pub fn wezghuli_read_line(line: *const u8, line_len: usize, words: *mut u64) -> u64;
        pub fn wezghuli_write_line(
            words: *const u64,
            out: *mut u8,
            out_len: usize,
            written: *mut u64,
        ) -> u64;
    }
}

const STATUS_NO_HEAD: u64 = 100;
const HEAD_CAMPAIGNS: usize = 4;
const ANSWER_CLOSING: u64 = 5;
const FORM_PLAN: u64 = 0;
const FORM_CAMPAIGN: u64 = 1;
const FORM_START: u64 = 2;
const FORM_VIEW: u64 = 3;
const FORM_CLOSE: u64 = 4;
const FORM_OK: u64 = 5;
const FORM_PLAY: u64 = 6;
const FORM_NOBODY: u64 = 7;
const FORM_REFUSED: u64 = 8;
const FORM_CLOSED: u64 = 9;
const FORM_TALLY: u64 = 10;
const FORM_PAUSE: u64 = 11;
const FORM_RESUME: u64 = 12;
const LINE_ROOM: usize = 201;

/// The form of each kind of answer, which are numbered from 1.
const ANSWER_FORMS: [u64; 5] = [FORM_OK, FORM_PLAY, FORM_NOBODY, FORM_TALLY, FORM_CLOSED];

type Answer = [u64; 5];
type Record = [u64; 6];

/// A state. Its fields are private, so that only the library writes them and none of its calls is misuse.
struct Day {
    head: [u64; 7],
    terms: [u32; 128],
    counts: [u16; 256],
}

impl Day {
    fn blank() -> Day {
        let mut day = Day {
            head: [0; 7],
            terms: [0; 128],
            counts: [0; 256],
        };
        let Day {
            head,
            terms,
            counts,
        } = &mut day;
        unsafe { c::wezghuli_blank(head.as_mut_ptr(), terms.as_mut_ptr(), counts.as_mut_ptr()) };
        day
    }

    /// The answer to the call that a record asks for, or the number of the question that failed; an output form asks
    /// for none.
    fn call(&mut self, words: Record) -> Result<Answer, u64> {
        let mut answer = [0; 5];
        let (h, t, n) = (
            self.head.as_mut_ptr(),
            self.terms.as_mut_ptr(),
            self.counts.as_mut_ptr(),
        );
        let a = answer.as_mut_ptr();
        let status = unsafe {
            match words[0] {
                FORM_PLAN => c::wezghuli_open(h, t, n, words[1], words[2], a),
                FORM_CAMPAIGN => c::wezghuli_add(h, t, n, words[1], words[2], a),
                FORM_START => c::wezghuli_start(h, t, n, a),
                FORM_VIEW => c::wezghuli_view(h, t, n, words[1], a),
                FORM_PAUSE => c::wezghuli_pause(h, t, n, words[1], a),
                FORM_RESUME => c::wezghuli_resume(h, t, n, words[1], a),
                FORM_CLOSE => c::wezghuli_close(h, t, n, a),
                _ => return Err(17),
            }
        };
        assert!(status < STATUS_NO_HEAD, "this memory holds no state");
        match status {
            0 => Ok(answer),
            question => Err(question),
        }
    }

    fn tally(&mut self, campaign: u64) -> Record {
        let mut a = [0; 5];
        let status = unsafe {
            c::wezghuli_tally(
                self.head.as_mut_ptr(),
                self.terms.as_mut_ptr(),
                self.counts.as_mut_ptr(),
                campaign,
                a.as_mut_ptr(),
            )
        };
        assert_eq!(status, 0);
        [FORM_TALLY, campaign, a[1], a[2], a[3], a[4]]
    }

    fn campaigns(&self) -> u64 {
        self.head[HEAD_CAMPAIGNS]
    }
}

/// The record of a line, or the number of the question that failed.
fn read(line: &str) -> Result<Record, u64> {
    let mut words = [0; 6];
    match unsafe { c::wezghuli_read_line(line.as_ptr(), line.len(), words.as_mut_ptr()) } {
        0 => Ok(words),
        question => Err(question),
    }
}

fn print(words: Record) {
    let mut line = [0; LINE_ROOM];
    let mut length = [0];
    let status = unsafe {
        c::wezghuli_write_line(
            words.as_ptr(),
            line.as_mut_ptr(),
            line.len(),
            length.as_mut_ptr(),
        )
    };
    assert_eq!(status, 0, "an answer's numbers are in their ranges");
    std::io::stdout()
        .write_all(&line[..length[0] as usize])
        .expect("standard output");
}

fn print_answer(a: Answer) {
    print([ANSWER_FORMS[a[0] as usize - 1], a[1], a[2], a[3], a[4], 0]);
}

const LISTING: &str = "\
(plan (depth 2) (width 2))
(campaign (price 5) (budget 10))
(campaign (price 3) (budget 6))
(start)
(view 0 1)
(view 0 1)
(view 0 1)
(view 0)
(view 1)
(view 2)
(close)
";

fn main() {
    let mut day = Day::blank();
    for line in LISTING.lines() {
        let answer = match read(line).and_then(|words| day.call(words)) {
            Ok(answer) => answer,
            Err(question) => {
                print([FORM_REFUSED, question, 0, 0, 0, 0]);
                continue;
            }
        };
        print_answer(answer);
        if answer[0] == ANSWER_CLOSING {
            for campaign in 0..day.campaigns() {
                print(day.tally(campaign));
            }
        }
    }
}
