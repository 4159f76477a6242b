//! The proved operations, by the static library that `rt` writes.

use crate::oracle::Answer;
use crate::subject::Subject;

/// How many numbers an answer has: its own and at most five details.
const NUMBERS: usize = 6;

type Numbers = [usize; NUMBERS];

extern "C" {
    fn malovuneth_verify(sheet: *const u8, length: usize, out: *mut Numbers) -> usize;
    fn malovuneth_contract_check(sheet: *const u8, length: usize, out: *mut Numbers) -> usize;
    fn malovuneth_contract_form(sheet: *const u8, length: usize, out: *mut Numbers) -> usize;
    fn malovuneth_lower(
        sheet: *const u8,
        length: usize,
        out: *mut u8,
        room: usize,
        numbers: *mut Numbers,
    ) -> usize;
}

/// The numbers, the first of which is returned too.
fn returned(first: usize, numbers: Numbers) -> Numbers {
    assert_eq!(first, numbers[0], "the number returned is not the first");
    numbers
}

/// The numbers of the verifier's answer.
pub fn verify(sheet: &[u8]) -> Numbers {
    let mut out = [usize::MAX; NUMBERS];
    // SAFETY: the sheet and the numbers are lent for the call alone.
    let first = unsafe { malovuneth_verify(sheet.as_ptr(), sheet.len(), &mut out) };
    returned(first, out)
}

/// The numbers of the answer to a contract sheet's length, form and limits.
pub fn contract_check(sheet: &[u8]) -> Numbers {
    let mut out = [usize::MAX; NUMBERS];
    // SAFETY: as above.
    let first = unsafe { malovuneth_contract_check(sheet.as_ptr(), sheet.len(), &mut out) };
    returned(first, out)
}

/// The numbers of the answer to a contract sheet's form.
pub fn contract_form(sheet: &[u8]) -> Numbers {
    let mut out = [usize::MAX; NUMBERS];
    // SAFETY: as above.
    let first = unsafe { malovuneth_contract_form(sheet.as_ptr(), sheet.len(), &mut out) };
    returned(first, out)
}

/// The numbers of lowering's answer, whose second one is on acceptance the
/// length of the sheet that `out` then begins with.
pub fn lower(sheet: &[u8], out: &mut [u8]) -> Numbers {
    let mut numbers = [usize::MAX; NUMBERS];
    // SAFETY: the sheet, the output and the numbers are lent for the call
    // alone, and do not overlap.
    let first = unsafe {
        malovuneth_lower(
            sheet.as_ptr(),
            sheet.len(),
            out.as_mut_ptr(),
            out.len(),
            &mut numbers,
        )
    };
    returned(first, numbers)
}

/// The operations of the archive.
pub struct Archive;

impl Subject for Archive {
    fn verify(&self, sheet: &[u8]) -> Answer {
        answer(verify(sheet))
    }

    fn check(&self, sheet: &[u8]) -> Answer {
        answer(contract_check(sheet))
    }

    fn lower(&self, sheet: &[u8], out: &mut [u8]) -> Answer {
        match lower(sheet, out) {
            [0, length, 0, 0, 0, 0] if length <= out.len() => {
                Answer::Accepted(out[..length].to_vec())
            }
            numbers => answer(numbers),
        }
    }
}

/// How many details a refusal of a number has, by document 01.
fn details(number: usize) -> usize {
    match number {
        3 | 4 | 10..=12 | 30 | 40 => 1,
        14 | 41..=44 | 48..=50 => 2,
        46 => 4,
        45 | 47 => 5,
        _ => 0,
    }
}

/// The answer but for an accepted lowering. Surplus numbers must be 0; those
/// that are not stay, and so differ.
fn answer(numbers: Numbers) -> Answer {
    let [number, rest @ ..] = numbers;
    let surplus = rest[details(number)..].iter().any(|&n| n != 0);
    if number == 0 && !surplus {
        return Answer::Accepted(Vec::new());
    }
    let kept = if surplus { rest.len() } else { details(number) };
    // What does not fit is no number of an answer, and so differs.
    let detail = |&n: &usize| u32::try_from(n).unwrap_or(u32::MAX);
    Answer::Refused {
        number: u16::try_from(number).unwrap_or(u16::MAX),
        details: rest[..kept].iter().map(detail).collect(),
    }
}
