//! The day by the product's library: a call in another language for each view, on a state in memory lent to it.

use crate::checksum::fold;
use crate::plain::Answer;

extern "C" {
    fn wezghuli_blank(head: *mut u64, terms: *mut u32, counts: *mut u16);
    fn wezghuli_open(
        head: *mut u64,
        terms: *mut u32,
        counts: *mut u16,
        depth: u64,
        width: u64,
        answer: *mut u64,
    ) -> u64;
    fn wezghuli_add(
        head: *mut u64,
        terms: *mut u32,
        counts: *mut u16,
        price: u64,
        budget: u64,
        answer: *mut u64,
    ) -> u64;
    fn wezghuli_start(head: *mut u64, terms: *mut u32, counts: *mut u16, answer: *mut u64) -> u64;
    fn wezghuli_view(
        head: *mut u64,
        terms: *mut u32,
        counts: *mut u16,
        set: u64,
        answer: *mut u64,
    ) -> u64;
}

#[repr(C)]
pub struct Day {
    head: [u64; 7],
    terms: [u32; 128],
    counts: [u16; 256],
    answer: [u64; 5],
}

impl Day {
    fn lent(&mut self) -> (*mut u64, *mut u32, *mut u16, *mut u64) {
        (
            self.head.as_mut_ptr(),
            self.terms.as_mut_ptr(),
            self.counts.as_mut_ptr(),
            self.answer.as_mut_ptr(),
        )
    }

    pub fn start(depth: u64, width: u64, campaigns: &[u64]) -> Day {
        let mut day = Day {
            head: [0; 7],
            terms: [0; 128],
            counts: [0; 256],
            answer: [0; 5],
        };
        let (h, t, n, a) = day.lent();
        unsafe {
            wezghuli_blank(h, t, n);
            wezghuli_open(h, t, n, depth, width, a);
            for pair in campaigns.chunks_exact(2) {
                wezghuli_add(h, t, n, pair[0], pair[1], a);
            }
            wezghuli_start(h, t, n, a);
        }
        day
    }

    pub fn view(&mut self, set: u64) -> Answer {
        let (h, t, n, a) = self.lent();
        match (unsafe { wezghuli_view(h, t, n, set, a) }, self.answer) {
            (0, [2, campaign, paid, ..]) => Answer::Played(campaign, paid),
            (0, _) => Answer::Nobody,
            (question, _) => Answer::Refused(question),
        }
    }

    pub fn fold_counts(&self, sum: u64) -> u64 {
        (0..64).fold(sum, |sum, i| {
            [0, 64, 128, 192].iter().fold(sum, |sum, column| {
                fold(sum, u64::from(self.counts[i + column]))
            })
        })
    }
}
