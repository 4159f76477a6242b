//! The body check: what the Rust's `analyze` says of a contract sheet, with
//! the place that it does not give.
//!
//! `analyze` registers structs and functions before it looks at a body, and
//! pushes nothing there: `Type::from_str` never fails, so that neither a field,
//! a parameter nor a return type is ever `Unknown`, and a name that is declared
//! twice, a built-in's among them, is replaced without a word. Its maps are
//! only asked for names, never walked, so that their order does not matter.

mod pushed;
pub mod walk;

use crate::oracle::{checked, refused, Answer};
use crate::proof_sheets::hex;
use crate::sema::SemanticAnalyzer;
use crate::sheet::contract_read;
use crate::sheet::parse::Tree;
use crate::CompileError;
use walk::Finding;

/// The refusal of the body check.
pub const REFUSAL: u16 = 51;

/// How the texts of the Rust's errors begin, in the order in which `sema.rs`
/// has them: the first is number 1. The sixth is looked at before the seventh,
/// which begins as it does.
pub const BEGINNINGS: [&str; 13] = [
    "Type mismatch in assign: ",
    "Undefined variable: ",
    "Type mismatch in return: ",
    "Undefined identifier: ",
    "Struct ",
    "Field access on non-struct",
    "Field ",
    "Unknown field ",
    "Undefined struct: ",
    "Function ",
    "Arg ",
    "Undefined function: ",
    "Type mismatch in binary expression",
];

/// How many error texts there are.
pub const TEXTS: u16 = BEGINNINGS.len() as u16;

/// The number of an error text of the Rust.
pub fn number_of(text: &str) -> u16 {
    let begins = |beginning: &&str| text.starts_with(*beginning);
    match BEGINNINGS.iter().position(begins) {
        Some(position) => position as u16 + 1,
        None => panic!("an unknown error of the Rust: {text}"),
    }
}

fn number(CompileError::SemanticError(text): &CompileError) -> u16 {
    number_of(text)
}

/// The answer to a contract sheet: the Rust's number, and the place where the
/// second walk finds it.
pub fn analyze(sheet: &[u8]) -> Answer {
    let tree = match checked(sheet) {
        Ok(tree) => tree,
        Err(answer) => return answer,
    };
    let found = walk::first(&tree);
    let number = found.map(|finding| finding.number);
    assert_eq!(
        number,
        by_rust(&tree),
        "the second walk differs from the Rust: {}",
        hex(sheet)
    );
    match found {
        Some(Finding { place, number }) => refused(REFUSAL, [place, number.into()]),
        None => Answer::Accepted(Vec::new()),
    }
}

/// The number of the error that the Rust gives.
pub fn by_rust(tree: &Tree) -> Option<u16> {
    let contract = contract_read::contract(tree);
    let given = SemanticAnalyzer::new().analyze(&contract);
    given.err().as_ref().map(number)
}

/// The numbers of all errors that the Rust pushes, in its order, of which it
/// gives the first alone; none for a sheet that is refused before the check.
pub fn pushed(sheet: &[u8]) -> Vec<u16> {
    match checked(sheet) {
        Ok(tree) => pushed::errors(&contract_read::contract(&tree))
            .iter()
            .map(number)
            .collect(),
        Err(_) => Vec::new(),
    }
}
