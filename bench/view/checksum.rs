//! The checksum of a day's answers and counts, as the proved library folds it.

use crate::plain::Answer;

pub fn fold(sum: u64, word: u64) -> u64 {
    (sum % (1 << 32)) * 1_000_003 + word % (1 << 32)
}

pub fn fold_answer(sum: u64, answer: Answer) -> u64 {
    match answer {
        Answer::Refused(question) => fold(fold(sum, 64), question),
        Answer::Played(campaign, paid) => fold(fold(sum, campaign), paid),
        Answer::Nobody => fold(sum, 129),
    }
}
