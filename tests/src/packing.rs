//! The one number of 64 bits that an answer is.

use crate::arrangement::Arrangement;
use crate::graph::Refusal;
use crate::verdict::{Judgement, Verdict};

/// The bits of a refusal: its code and its place.
fn packed_refusal(refusal: Refusal) -> u64 {
    (128 + u64::from(refusal.number)) << 56 | refusal.place.min(u64::from(u32::MAX))
}

/// The one number that gives a number of bytes.
pub fn packed_size(size: Result<usize, Refusal>) -> u64 {
    match size {
        Ok(bytes) => bytes as u64,
        Err(refusal) => packed_refusal(refusal),
    }
}

/// The one number that gives a judgement.
pub fn packed(judgement: &Judgement) -> u64 {
    let number = |ending: u64, row: u32, column: u32, low: u64| {
        ending << 56
            | (judgement.literals as u64) << 44
            | u64::from(column) << 38
            | u64::from(row) << 32
            | low
    };
    match judgement.verdict {
        Verdict::Nothing { steps } => number(0, 0, 0, u64::from(steps)),
        Verdict::Smaller { row, column, steps } => number(1, row, column, u64::from(steps)),
        Verdict::Cut { steps } => number(2, 0, 0, u64::from(steps)),
        Verdict::Refused(refusal) => packed_refusal(refusal),
    }
}

/// The judgement that the number gives, with this arrangement.
pub fn unpacked(answer: u64, arrangement: Arrangement) -> Judgement {
    let field = |low: u32, width: u32| (answer >> low & ((1 << width) - 1)) as u32;
    let steps = field(0, 32);
    let verdict = match field(56, 8) {
        0 => Verdict::Nothing { steps },
        1 => Verdict::Smaller { row: field(32, 6), column: field(38, 6), steps },
        2 => Verdict::Cut { steps },
        ending => Verdict::Refused(Refusal { number: ending - 128, place: u64::from(steps) }),
    };
    let judgement = Judgement { verdict, arrangement, literals: field(44, 9) as usize };
    assert_eq!(answer, packed(&judgement), "bits that mean nothing are zero");
    judgement
}
