//! Lowers contract sheets to program sheets, and verifies program sheets, by
//! the proved static library `libmalovuneth.a`.
//!
//! Both functions take any bytes, and end on all of them. A sheet is accepted,
//! or refused with a [`Refusal`], which has a number and its details.
//!
//! The project's docs/FORMAT.md has both sheets record by record, what lowering
//! writes, what verifying asks, and an example of each number.
//!
//! ```
//! use malovuneth::{lower, lower_to_vec, verify, Name, Refusal, Type, ValueId, MOST_BYTES};
//!
//! // A contract without functions.
//! let contract = [8, 0, 0, 0, 1, 0, 10, 0];
//! let mut out = [0; MOST_BYTES];
//! let program = lower(&contract, &mut out)?;
//! assert_eq!(program, [6, 0, 0, 0, 50, 0]);
//! verify(program)?;
//!
//! // No bytes are no contract.
//! assert_eq!(lower_to_vec(&[]), Err(Refusal::ContractForm { place: 0 }));
//!
//! // `if 1 {}` is lowered, and the verifier refuses the program for types.
//! let contract = [
//!     48, 0, 0, 0, 1, 0, 10, 0, // contract 10
//!     40, 0, 0, 0, 4, 0, 11, 0, 255, 255, 0, 0, 0, 0, // function 11
//!     26, 0, 0, 0, 15, 0, // If
//!     14, 0, 0, 0, 30, 0, 1, 0, 0, 0, 0, 0, 0, 0, // Int 1
//!     6, 0, 0, 0, 5, 0, // its block
//! ];
//! let refusal = verify(&lower_to_vec(&contract)?).unwrap_err();
//! let (function, value) = (Name(11), ValueId(0));
//! assert_eq!(refusal, Refusal::BranchConditionNotBool { function, value, ty: Type::U64 });
//! assert_eq!(refusal.number(), 46);
//! assert_eq!(refusal.to_string(), "function 11: BranchConditionNotBool: id 0, type U64");
//! # Ok::<(), Refusal>(())
//! ```
//!
//! # Linking
//!
//! The build links `libmalovuneth.a`, for x86-64 Linux, from the folder that
//! the environment variable `MALOVUNETH_LIB_DIR` names, or from
//! `target/staticlib` of the project, where `./malovuneth archive` writes it.
//!
//! # Without the standard library
//!
//! The crate is `no_std`. [`lower_to_vec`] alone needs an allocator: it is there
//! by the feature `alloc`, which is on unless `default-features = false`.
//!
//! # Stack and threads
//!
//! Lowering takes up to some 302 kB of stack, and verifying less than 1 kB:
//! the 2 MiB of a thread of the standard library are enough. Nothing is kept
//! between calls, and any number of threads may call at once.
//!
//! # What the archive hands back
//!
//! It is checked too. An answer that docs/FORMAT.md does not have, or a length
//! over the output's, is no answer of this version's archive, which is proved
//! to give none: another archive was linked. The functions then panic, since
//! no [`Refusal`] would be true, and the output may hold anything.
//! [`linked_version`] says which version was linked.

#![no_std]
#![deny(missing_docs)]
#![deny(unsafe_code)]

#[cfg(feature = "alloc")]
extern crate alloc;

mod decode;
#[allow(unsafe_code)]
mod ffi;
mod refusal;

pub use refusal::{BlockId, FunctionId, LocalId, Name, Refusal, Type, ValueId};

/// The most bytes of a sheet of either kind: an output of so many bytes holds
/// every program sheet.
pub const MOST_BYTES: usize = 32_768;

/// This crate's version: major * 10,000 + minor * 100 + patch.
pub const VERSION: usize = 300;

/// The version of the archive that was linked, counted as [`VERSION`] is. An
/// archive of another patch version makes the same promises.
#[must_use]
pub fn linked_version() -> usize {
    ffi::version()
}

/// Lowers a contract sheet into `out`, and gives the program sheet, which is
/// the beginning of `out`.
///
/// Every byte of `out` is written: behind the program sheet are zeros, and
/// after a refusal all of them are zeros.
///
/// # Errors
///
/// Refusals 1, 3, 4, 10 to 20, 30 and 31.
///
/// # Panics
///
/// If the linked archive is not this version's (see the crate's page).
pub fn lower<'out>(sheet: &[u8], out: &'out mut [u8]) -> Result<&'out [u8], Refusal> {
    let length = decode::lowered(ffi::lower(sheet, out))?;
    let program = out.get(..length);
    Ok(program.expect("the archive gives no length over the output's"))
}

/// Lowers a contract sheet, and gives the program sheet. It is refused with 31
/// only if the program sheet is over [`MOST_BYTES`].
///
/// # Errors
///
/// As [`lower`].
///
/// # Panics
///
/// As [`lower`].
#[cfg(feature = "alloc")]
pub fn lower_to_vec(sheet: &[u8]) -> Result<alloc::vec::Vec<u8>, Refusal> {
    let mut out = alloc::vec![0; MOST_BYTES];
    let length = lower(sheet, &mut out)?.len();
    out.truncate(length);
    Ok(out)
}

/// Verifies a program sheet.
///
/// A sheet that was lowered is refused for types at most: 45, 46 or 47.
///
/// # Errors
///
/// Refusals 1 and 40 to 50.
///
/// # Panics
///
/// If the linked archive is not this version's (see the crate's page).
pub fn verify(sheet: &[u8]) -> Result<(), Refusal> {
    decode::verified(ffi::verify(sheet))
}
