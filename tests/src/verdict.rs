//! What judging answers.

use crate::arrangement::Arrangement;
use crate::graph::Refusal;

#[derive(Clone, Copy, PartialEq, Eq, Debug)]
pub enum Verdict {
    Smaller { row: u32, column: u32, steps: u32 },
    Nothing { steps: u32 },
    Cut { steps: u32 },
    Refused(Refusal),
}

/// The verdict with the arrangement and how many literals were written, both
/// zero except for "smaller".
#[derive(Clone, Copy, PartialEq, Eq, Debug)]
pub struct Judgement {
    pub verdict: Verdict,
    pub arrangement: Arrangement,
    pub literals: usize,
}

impl Judgement {
    /// A judgement without a certificate.
    pub fn without(verdict: Verdict) -> Judgement {
        Judgement { verdict, arrangement: [0; 32], literals: 0 }
    }

    /// The steps told; 0 for a refusal.
    pub fn steps(&self) -> u32 {
        match self.verdict {
            Verdict::Smaller { steps, .. }
            | Verdict::Nothing { steps }
            | Verdict::Cut { steps } => steps,
            Verdict::Refused(_) => 0,
        }
    }
}
