//! The proved library: its declarations, and a safe function over them. The library asks nothing of its callers, so the
//! wrapper only hands over arrays.

use crate::model::Call;

extern "C" {
    fn wezghuli_blank(head: *mut u64, terms: *mut u32, counts: *mut u16);
    fn wezghuli_open(
        head: *mut u64,
        terms: *mut u32,
        counts: *mut u16,
        depth: u64,
        width: u64,
        answer: *mut u64,
    ) -> u64;
    fn wezghuli_add(
        head: *mut u64,
        terms: *mut u32,
        counts: *mut u16,
        price: u64,
        budget: u64,
        answer: *mut u64,
    ) -> u64;
    fn wezghuli_start(head: *mut u64, terms: *mut u32, counts: *mut u16, answer: *mut u64) -> u64;
    fn wezghuli_view(head: *mut u64, terms: *mut u32, counts: *mut u16, set: u64, answer: *mut u64) -> u64;
    fn wezghuli_tally(head: *mut u64, terms: *mut u32, counts: *mut u16, campaign: u64, answer: *mut u64) -> u64;
    fn wezghuli_pause(head: *mut u64, terms: *mut u32, counts: *mut u16, campaign: u64, answer: *mut u64) -> u64;
    fn wezghuli_resume(head: *mut u64, terms: *mut u32, counts: *mut u16, campaign: u64, answer: *mut u64) -> u64;
    fn wezghuli_close(head: *mut u64, terms: *mut u32, counts: *mut u16, answer: *mut u64) -> u64;
}

/// What the lent words hold before a call, so that a word left untouched is seen.
const UNTOUCHED: u64 = 0x5a5a_5a5a_5a5a_5a5a;

/// The words of an answer that no call has written.
pub const NO_ANSWER: [u64; 5] = [UNTOUCHED; 5];

type Guard = [u64; 2];

/// The words of a head: phase, takings held, depth, width, campaigns, accepted views, and the set of paused ones.
pub type Head = [u64; 7];

/// What is lent to an operation, with words between its parts that nobody may write.
#[derive(Clone, PartialEq, Debug)]
#[repr(C)]
pub struct Lent {
    guard: Guard,
    pub head: Head,
    before_terms: Guard,
    pub terms: [u32; 128],
    before_counts: Guard,
    pub counts: [u16; 256],
    before_answer: Guard,
    pub answer: [u64; 5],
    end: Guard,
}

impl Lent {
    pub fn new(head: Head, terms: [u32; 128], counts: [u16; 256]) -> Lent {
        let guard = [UNTOUCHED; 2];
        Lent {
            guard,
            head,
            before_terms: guard,
            terms,
            before_counts: guard,
            counts,
            before_answer: guard,
            answer: NO_ANSWER,
            end: guard,
        }
    }

    pub fn blank(&mut self) {
        unsafe { wezghuli_blank(self.head.as_mut_ptr(), self.terms.as_mut_ptr(), self.counts.as_mut_ptr()) }
    }

    /// Makes one call, and gives its status.
    pub fn operate(&mut self, call: Call) -> u64 {
        let Call { kind, a, b } = call;
        let (h, t, n) = (self.head.as_mut_ptr(), self.terms.as_mut_ptr(), self.counts.as_mut_ptr());
        let out = self.answer.as_mut_ptr();
        unsafe {
            match kind {
                0 => wezghuli_open(h, t, n, a, b, out),
                1 => wezghuli_add(h, t, n, a, b, out),
                2 => wezghuli_start(h, t, n, out),
                3 => wezghuli_view(h, t, n, a, out),
                4 => wezghuli_tally(h, t, n, a, out),
                5 => wezghuli_close(h, t, n, out),
                6 => wezghuli_pause(h, t, n, a, out),
                _ => wezghuli_resume(h, t, n, a, out),
            }
        }
    }
}
