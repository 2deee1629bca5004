//! The proved library's page, through a safe function. The library asks nothing of its callers.

use crate::library::Lent;

extern "C" {
    fn wezghuli_page(
        head: *const u64,
        terms: *const u32,
        counts: *const u16,
        out: *mut u8,
        out_len: usize,
        written: *mut u64,
    ) -> u64;
}

/// What a refusal leaves as the length.
pub const NO_LENGTH: u64 = 0x5a5a_5a5a_5a5a_5a5a;

/// Prints the page of a state: the status, and the length.
pub fn page(lent: &Lent, out: &mut [u8]) -> (u64, u64) {
    let mut length = NO_LENGTH;
    let status = unsafe {
        wezghuli_page(
            lent.head.as_ptr(),
            lent.terms.as_ptr(),
            lent.counts.as_ptr(),
            out.as_mut_ptr(),
            out.len(),
            &mut length,
        )
    };
    (status, length)
}
