//! The calls of the static library: the one module with `unsafe` in it.

/// How many numbers an answer has: its own and five for its details.
const NUMBERS: usize = 6;

/// An answer as the archive hands it out: its number, its details, zeros.
pub(crate) type Numbers = [usize; NUMBERS];

// As include/malovuneth.h declares them.
extern "C" {
    fn malovuneth_lower(
        sheet: *const u8,
        length: usize,
        out: *mut u8,
        room: usize,
        numbers: *mut usize,
    ) -> usize;
    fn malovuneth_verify(sheet: *const u8, length: usize, numbers: *mut usize) -> usize;
    fn malovuneth_version() -> usize;
}

pub(crate) fn lower(sheet: &[u8], out: &mut [u8]) -> Numbers {
    let mut numbers = [0; NUMBERS];
    // SAFETY: each pointer comes with the length of what is borrowed for the
    // call, six of `usize` for the numbers. Of these only `out` and `numbers`
    // are written, and they are borrowed mutably: nothing overlaps them.
    let first = unsafe {
        malovuneth_lower(
            sheet.as_ptr(),
            sheet.len(),
            out.as_mut_ptr(),
            out.len(),
            numbers.as_mut_ptr(),
        )
    };
    returned(first, numbers)
}

pub(crate) fn verify(sheet: &[u8]) -> Numbers {
    let mut numbers = [0; NUMBERS];
    // SAFETY: as above; only `numbers` is written.
    let first = unsafe { malovuneth_verify(sheet.as_ptr(), sheet.len(), numbers.as_mut_ptr()) };
    returned(first, numbers)
}

pub(crate) fn version() -> usize {
    // SAFETY: nothing is lent.
    unsafe { malovuneth_version() }
}

/// The numbers, the first of which was returned too.
fn returned(first: usize, numbers: Numbers) -> Numbers {
    assert_eq!(
        first, numbers[0],
        "the linked libmalovuneth.a is not this version's"
    );
    numbers
}
