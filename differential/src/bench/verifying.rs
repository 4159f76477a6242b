//! Verifying a program sheet, and the form of a contract sheet.

use std::hint::black_box;

use super::{add, call, Maker, Operation, Row};
use crate::archive;
use crate::ast::{BinOp, Contract, Function, Stmt};
use crate::build::*;
use crate::ir::{lower, verify, IrProgram};
use crate::oracle::{lower_answer, Answer};
use crate::sema::SemanticAnalyzer;
use crate::sheet::{contract_write, kind, parse, program_read, SHEET_LIMIT};

const CONTRACT: u16 = 10;
const FUNCTION: u16 = 11;
const U64: u16 = 1;
/// The parameter.
const P: u16 = 200;
/// A local.
const X: u16 = 201;
/// A storage field.
const S: u16 = 202;

/// How the code of a contract is spread.
#[derive(Debug, Clone, Copy, PartialEq, Eq)]
pub enum Shape {
    /// All in one function: the longest search for a value.
    One,
    /// A function for each part of the code.
    Many,
}

/// One part of a function's code: some twenty instructions and a branch.
fn part() -> Vec<Stmt> {
    let sum = add(ident(P), storage_read(S));
    let product = binary(ident(X), BinOp::Mul, add(ident(P), int(3)));
    let test = binary(ident(X), BinOp::Lt, add(product, int(1)));
    let other = storage_write(S, add(ident(P), int(2)));
    vec![
        let_(X, sum),
        assign(X, add(ident(X), ident(X))),
        Stmt::If(test, vec![storage_write(S, ident(X))], Some(vec![other])),
    ]
}

fn function_of_parts(name: u16, parts: usize) -> Function {
    let mut body: Vec<Stmt> = (0..parts).flat_map(|_| part()).collect();
    body.push(returning(ident(P)));
    function_of(&[(P, U64)], function(name, Some(U64), body))
}

fn contract_of_parts(shape: Shape, parts: usize) -> Contract {
    let functions = match shape {
        Shape::One => vec![function_of_parts(FUNCTION, parts)],
        Shape::Many => (0..parts as u16)
            .map(|i| function_of_parts(FUNCTION + i, 1))
            .collect(),
    };
    Contract {
        storage: vec![field(S, U64)],
        ..contract(CONTRACT, functions)
    }
}

/// The accepted program of a contract.
fn lowered(contract: &Contract) -> Option<Vec<u8>> {
    match lower_answer(&contract_write::contract(contract), SHEET_LIMIT) {
        Answer::Accepted(sheet) => Some(sheet),
        Answer::Refused { .. } => None,
    }
}

/// The contract whose sheet, by `sheet`, is the longest of at most `length`.
fn longest(shape: Shape, length: usize, sheet: fn(&Contract) -> Option<Vec<u8>>) -> Contract {
    let fits = |contract: &Contract| sheet(contract).is_some_and(|sheet| sheet.len() <= length);
    let contracts = (1..).map(|parts| contract_of_parts(shape, parts));
    contracts.take_while(fits).last().expect("a part fits")
}

fn read(sheet: &[u8]) -> IrProgram {
    program_read::program(&parse::parse(sheet, kind::PROGRAM))
}

fn verifying(label: String, sheet: Vec<u8>) -> Row {
    assert_eq!(archive::verify(&sheet), [0; 6], "{label} is accepted");
    let program = read(&sheet);
    verify::verify_program(&program).expect("accepted");
    let (first, second) = (sheet.clone(), sheet.clone());
    Row {
        label,
        sheet,
        operation: Operation::Verify,
        gives: "0".into(),
        calls: vec![
            call(move || archive::verify(black_box(&first))),
            call(move || verify::verify_program(black_box(&program))),
            call(move || verify::verify_program(&read(black_box(&second)))),
        ],
    }
}

fn lower_by_rust(contract: &Contract) -> IrProgram {
    let mut analyzer = SemanticAnalyzer::new();
    let _ = analyzer.analyze(contract);
    lower::lower_contract(contract, &analyzer).expect("accepted")
}

fn form(label: String, contract: Contract) -> Row {
    let sheet = contract_write::contract(&contract);
    assert_eq!(archive::contract_form(&sheet), [0; 6], "{label} is good");
    let first = sheet.clone();
    Row {
        label,
        sheet,
        operation: Operation::Form,
        gives: "0".into(),
        calls: vec![
            call(move || archive::contract_form(black_box(&first))),
            call(move || lower_by_rust(black_box(&contract))),
        ],
    }
}

/// A small program, then programs of some lengths of both shapes, then the
/// form of contracts.
pub fn rows() -> Vec<Maker> {
    let mut rows: Vec<Maker> = vec![Box::new(|| {
        let body = vec![returning(ident(P))];
        let small = function_of(&[(P, U64)], function(FUNCTION, Some(U64), body));
        let sheet = lowered(&contract(CONTRACT, vec![small])).expect("accepted");
        verifying("verify, 1 function".into(), sheet)
    })];
    let shapes = [(Shape::One, "1 function"), (Shape::Many, "many functions")];
    for (shape, functions) in shapes {
        for length in [3_000, 12_000, 30_000] {
            rows.push(Box::new(move || {
                let sheet = lowered(&longest(shape, length, lowered)).expect("accepted");
                verifying(format!("verify, {functions}"), sheet)
            }));
        }
    }
    for (shape, functions) in shapes {
        rows.push(Box::new(move || {
            let sheet = |contract: &Contract| Some(contract_write::contract(contract));
            let contract = longest(shape, 12_000, sheet);
            form(format!("form, {functions}"), contract)
        }));
    }
    rows
}
