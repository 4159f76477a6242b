//! Sheets written byte by byte, for those that no writer would write.

use crate::analysis::analyze;
use crate::ast::{Contract, Expr, Stmt};
use crate::build::{contract, function};
use crate::oracle::{lower_answer, verify_answer};
use crate::sheet::{contract_write, kind, SHEET_LIMIT};

/// A number of a sheet.
pub fn u(number: u16) -> Vec<u8> {
    number.to_le_bytes().to_vec()
}

/// Numbers of a sheet.
pub fn all(numbers: &[u16]) -> Vec<u8> {
    numbers.iter().flat_map(|&number| u(number)).collect()
}

/// A record with the right length.
pub fn record(kind: u16, parts: &[&[u8]]) -> Vec<u8> {
    let content = parts.concat();
    let length = 6 + content.len() as u32;
    [&length.to_le_bytes()[..], &u(kind), &content].concat()
}

/// A contract sheet of the given children; they start at byte 8.
pub fn contract_sheet(children: &[&[u8]]) -> Vec<u8> {
    record(kind::CONTRACT, &[&u(10), &children.concat()])
}

/// A contract sheet of one function; its statements start at byte 22.
pub fn body_sheet(statements: &[&[u8]]) -> Vec<u8> {
    let fields = all(&[11, 65_535, 0, 0]);
    contract_sheet(&[&record(kind::FUNCTION, &[&fields, &statements.concat()])])
}

/// A program sheet of one function with name 11 and no parameters or locals;
/// its blocks start at byte 24.
pub fn blocks_sheet(return_tag: u16, blocks: &[&[u8]]) -> Vec<u8> {
    let fields = all(&[0, 11, return_tag, 0, 0, 0]);
    let function = record(kind::IR_FUNCTION, &[&fields, &blocks.concat()]);
    record(kind::PROGRAM, &[&function])
}

/// A program sheet of one void function of one block, which ends in a Return
/// without a value; its instructions start at byte 32.
pub fn instructions_sheet(instructions: &[&[u8]]) -> Vec<u8> {
    let last = record(kind::IR_RETURN, &[&u(65_535)]);
    let block = record(kind::IR_BLOCK, &[&u(0), &instructions.concat(), &last]);
    blocks_sheet(4, &[&block])
}

/// A Const of type U64.
pub fn constant(result: u16) -> Vec<u8> {
    record(kind::CONST, &[&all(&[result, 0, 0, 7, 0, 0, 0])])
}

pub fn assertion(result: u16, condition: u16) -> Vec<u8> {
    record(kind::ASSERT, &[&all(&[result, condition])])
}

/// The printed answer to a contract sheet, with the usual output.
pub fn lowered(sheet: &[u8]) -> String {
    lower_answer(sheet, SHEET_LIMIT).to_string()
}

/// The printed answer to a program sheet.
pub fn verified(sheet: &[u8]) -> String {
    verify_answer(sheet).to_string()
}

/// A contract of one function, 11, without parameters and return type.
pub fn of_body(body: Vec<Stmt>) -> Contract {
    contract(10, vec![function(11, None, body)])
}

/// The printed answer to the sheet of a contract.
pub fn lowered_contract(contract: &Contract) -> String {
    lowered(&contract_write::contract(contract))
}

/// The printed answer to a contract of one function.
pub fn lowered_body(body: Vec<Stmt>) -> String {
    lowered_contract(&of_body(body))
}

/// The printed answer to one expression.
pub fn lowered_expr(value: Expr) -> String {
    lowered_body(vec![Stmt::Expr(value)])
}

/// Whether a printed answer is an acceptance.
pub fn accepted(line: &str) -> bool {
    line.starts_with("OK")
}

/// The printed answer of the body check to the sheet of a contract.
pub fn analyzed(contract: &Contract) -> String {
    analyze(&contract_write::contract(contract)).to_string()
}

/// The printed answer of the body check to a contract of one function.
pub fn analyzed_body(body: Vec<Stmt>) -> String {
    analyzed(&of_body(body))
}

/// The printed answer of the body check to one expression, which starts at
/// byte 28.
pub fn analyzed_expr(value: Expr) -> String {
    analyzed_body(vec![Stmt::Expr(value)])
}
