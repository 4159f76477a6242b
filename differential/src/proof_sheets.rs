//! The contracts P1 to P12 of document 01.

use crate::ast::{BinOp, Contract, Expr, Stmt};
use crate::build::*;
use crate::oracle::{lower_answer, verify_answer, Answer};
use crate::sheet::{contract_write, SHEET_LIMIT};

const CONTRACT: u16 = 10;
const FUNCTION: u16 = 11;
const CALLED: u16 = 12;
/// The variable `y`, and the loop variable `i`.
const Y: u16 = 20;
/// The storage field, or assigned name, `s`.
const S: u16 = 21;
/// The local `a`.
const A: u16 = 22;
const U64: u16 = 1;
const VOID: u16 = 4;
const SENDER: u16 = 7;

/// A contract of one function.
fn single(return_type: Option<u16>, body: Vec<Stmt>) -> Contract {
    contract(CONTRACT, vec![function(FUNCTION, return_type, body)])
}

fn compare(left: u64, operator: BinOp, right: u64) -> Expr {
    binary(int(left), operator, int(right))
}

/// P10: both a read and a write of the storage name that is declared twice.
fn storage_twice() -> Contract {
    Contract {
        storage: vec![field(S, U64), field(S, U64)],
        ..single(None, vec![storage_write(S, storage_read(S))])
    }
}

/// P11: the called function comes after its caller.
fn call_of_void() -> Contract {
    let caller = function(FUNCTION, None, vec![let_(A, call(CALLED, vec![]))]);
    contract(CONTRACT, vec![caller, function(CALLED, Some(VOID), vec![])])
}

/// The contracts with their labels. P8 has two.
pub fn contracts() -> Vec<(&'static str, Contract)> {
    let both_return = Stmt::If(
        compare(1, BinOp::Eq, 1),
        vec![returning(int(1))],
        Some(vec![returning(int(2))]),
    );
    let endless = Stmt::While(compare(1, BinOp::Lt, 2), vec![]);
    let sender = Stmt::Expr(call(SENDER, vec![ident(Y)]));
    let skipping = vec![returning(int(1)), returning(ident(Y))];
    vec![
        ("P1", contract(CONTRACT, vec![])),
        ("P2", single(None, vec![])),
        ("P3", single(Some(U64), vec![returning(int(7))])),
        ("P4", single(Some(U64), vec![both_return])),
        ("P5", single(None, vec![Stmt::If(int(1), vec![], None)])),
        ("P6", single(Some(U64), skipping)),
        ("P7", single(None, vec![endless])),
        (
            "P8 StorageWrite",
            single(None, vec![storage_write(S, ident(Y))]),
        ),
        ("P8 Assign", single(None, vec![assign(S, ident(Y))])),
        ("P9", single(None, vec![sender])),
        ("P10", storage_twice()),
        ("P11", call_of_void()),
        ("P12", single(None, vec![for_(Y, int(0), int(0), vec![])])),
    ]
}

/// The contract sheets with their labels.
pub fn sheets() -> Vec<(&'static str, Vec<u8>)> {
    let write = |(label, contract)| (label, contract_write::contract(&contract));
    contracts().into_iter().map(write).collect()
}

/// Bytes in hex, as document 01 prints them.
pub fn hex(bytes: &[u8]) -> String {
    let digits: Vec<String> = bytes.iter().map(|byte| format!("{byte:02X}")).collect();
    digits.join(" ")
}

/// One line for each contract: label, contract sheet, the answer to it, and
/// the answer to the program sheet or `-` if there is none.
pub fn rows() -> Vec<String> {
    let row = |(label, sheet): (&str, Vec<u8>)| {
        let lowered = lower_answer(&sheet, SHEET_LIMIT);
        let verified = match &lowered {
            Answer::Accepted(program) => verify_answer(program).to_string(),
            Answer::Refused { .. } => "-".to_string(),
        };
        format!("{label} | {} | {lowered} | {verified}", hex(&sheet))
    };
    sheets().into_iter().map(row).collect()
}
