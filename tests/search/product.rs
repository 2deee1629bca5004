//! The proved library's search and check, through safe functions. The library asks nothing of its callers.

use crate::library::Lent;
use crate::sides::Triple;

extern "C" {
    fn wezghuli_search(
        head: *const u64,
        terms: *const u32,
        counts: *const u16,
        views: *const u64,
        views_len: usize,
        allotment: *mut u64,
        allotment_len: usize,
        surplus: *mut u64,
        surplus_len: usize,
        worth: *mut u64,
        worth_len: usize,
    ) -> u64;
    fn wezghuli_check(
        head: *const u64,
        terms: *const u32,
        counts: *const u16,
        views: *const u64,
        views_len: usize,
        allotment: *const u64,
        allotment_len: usize,
        surplus: *const u64,
        surplus_len: usize,
        worth: *const u64,
        worth_len: usize,
    ) -> u64;
}

pub const STATUS_ACCEPTED: u64 = 0;
pub const STATUS_NO_HEAD: u64 = 100;
pub const STATUS_NO_FIT: u64 = 104;

/// The words on both sides of what is lent, which nobody may write.
const FENCE: [u64; 2] = [0xa5a5_a5a5_a5a5_a5a5; 2];

/// Lent words between two fences. They have a place of their own also where there are none.
struct Fenced(Vec<u64>);

impl Fenced {
    fn new(words: &[u64]) -> Fenced {
        Fenced([&FENCE, words, &FENCE].concat())
    }

    fn start(&mut self) -> *mut u64 {
        self.0[FENCE.len()..].as_mut_ptr()
    }

    /// The words, where both fences stand.
    fn words(&self) -> &[u64] {
        let (before, rest) = self.0.split_at(FENCE.len());
        let (words, after) = rest.split_at(rest.len() - FENCE.len());
        assert!(before == FENCE && after == FENCE, "words beside the lent entries were written");
        words
    }
}

/// Everything that is lent to one call.
struct Call {
    state: Lent,
    views: Fenced,
    entries: [Fenced; 3],
}

impl Call {
    fn new(state: &Lent, views: &[u64], triple: &Triple) -> Call {
        let entries = [&triple.allotment, &triple.surplus, &triple.worth].map(|words| Fenced::new(words));
        Call { state: state.clone(), views: Fenced::new(views), entries }
    }

    /// What is only read stays as it was.
    fn assert_read_only(&self, state: &Lent, views: &[u64]) {
        assert!(self.state == *state && self.views.words() == views, "the state or the views were written");
    }
}

/// The status; the triple has what was written.
pub fn search(state: &Lent, views: &[u64], triple: &mut Triple) -> u64 {
    let mut call = Call::new(state, views, triple);
    let (s, [a, u, v]) = (&mut call.state, &mut call.entries);
    let status = unsafe {
        wezghuli_search(
            s.head.as_mut_ptr(),
            s.terms.as_mut_ptr(),
            s.counts.as_mut_ptr(),
            call.views.start(),
            views.len(),
            a.start(),
            triple.allotment.len(),
            u.start(),
            triple.surplus.len(),
            v.start(),
            triple.worth.len(),
        )
    };
    call.assert_read_only(state, views);
    let [allotment, surplus, worth] = call.entries.each_ref().map(|e| e.words().to_vec());
    *triple = Triple { allotment, surplus, worth };
    status
}

/// The status; nothing is written.
pub fn check(state: &Lent, views: &[u64], triple: &Triple) -> u64 {
    let mut call = Call::new(state, views, triple);
    let (s, [a, u, v]) = (&mut call.state, &mut call.entries);
    let status = unsafe {
        wezghuli_check(
            s.head.as_mut_ptr(),
            s.terms.as_mut_ptr(),
            s.counts.as_mut_ptr(),
            call.views.start(),
            views.len(),
            a.start(),
            triple.allotment.len(),
            u.start(),
            triple.surplus.len(),
            v.start(),
            triple.worth.len(),
        )
    };
    call.assert_read_only(state, views);
    let after = call.entries.each_ref().map(Fenced::words);
    assert!(after == [&triple.allotment[..], &triple.surplus, &triple.worth], "the check wrote to a triple");
    status
}
