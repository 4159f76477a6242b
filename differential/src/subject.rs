//! What is compared with the oracle.

use crate::analysis;
use crate::oracle::{check_answer, lower_answer, verify_answer, Answer};

/// An implementation of lowering and verifying, and perhaps of the body check.
pub trait Subject {
    /// The answer to a program sheet.
    fn verify(&self, sheet: &[u8]) -> Answer;

    /// What lowering asks of a contract sheet before its walk.
    fn check(&self, sheet: &[u8]) -> Answer;

    /// The answer to a contract sheet. `out` is the lent output; on acceptance
    /// the answer's bytes are those of `out` up to the answered length.
    fn lower(&self, sheet: &[u8], out: &mut [u8]) -> Answer;

    /// The body check's answer to a contract sheet; none of a subject that has
    /// no body check.
    fn analyze(&self, _sheet: &[u8]) -> Option<Answer> {
        None
    }
}

/// The oracle itself, so that the driver runs without a subject.
pub struct SelfSubject;

impl Subject for SelfSubject {
    fn verify(&self, sheet: &[u8]) -> Answer {
        verify_answer(sheet)
    }

    fn check(&self, sheet: &[u8]) -> Answer {
        check_answer(sheet)
    }

    fn lower(&self, sheet: &[u8], out: &mut [u8]) -> Answer {
        let answer = lower_answer(sheet, out.len());
        out.fill(0);
        if let Answer::Accepted(finished) = &answer {
            out[..finished.len()].copy_from_slice(finished);
        }
        answer
    }

    fn analyze(&self, sheet: &[u8]) -> Option<Answer> {
        Some(analysis::analyze(sheet))
    }
}
