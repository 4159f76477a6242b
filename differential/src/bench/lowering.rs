//! Lowering, from the bytes of a contract sheet to those of a program sheet.

use std::hint::black_box;

use super::{add, call, Maker, Operation, Row};
use crate::archive;
use crate::ast::{BinOp, Contract, Expr, Function, Stmt};
use crate::build::*;
use crate::ir::lower;
use crate::sema::SemanticAnalyzer;
use crate::sheet::{
    contract_read, contract_write, kind, limits, parse, program_write, SHEET_LIMIT,
};

const CONTRACT: u16 = 10;
/// The function that the others call.
const HELPER: u16 = 11;
const FUNCTION: u16 = 12;
const U64: u16 = 1;
const POSEIDON: u16 = 5;
const SENDER: u16 = 7;
/// The parameters: a number and a struct value.
const P: u16 = 200;
const Q: u16 = 201;
/// Locals.
const X: u16 = 202;
const I: u16 = 203;
/// Storage fields, and fields of the struct.
const S: u16 = 204;
const T: u16 = 205;
const POINT: u16 = 206;
const EVENT: u16 = 207;
/// The names of further declarations.
const MORE: u16 = 1_000;

/// How the statements of a contract are spread.
#[derive(Debug, Clone, Copy, PartialEq, Eq)]
pub enum Shape {
    /// Every kind of statement and expression, in functions of two parts.
    Mixed,
    /// Without blocks, in one function.
    Straight,
}

fn less(left: Expr, right: Expr) -> Expr {
    binary(left, BinOp::Lt, right)
}

/// A statement or two of every kind.
fn mixed() -> Vec<Stmt> {
    let product = binary(ident(X), BinOp::Mul, access(ident(Q), T));
    let hash = call_of(POSEIDON, vec![ident(X), ident(P)]);
    let noted = vec![emit(EVENT, vec![ident(X), ident(P)])];
    let early = binary(ident(X), BinOp::Eq, storage_read(T));
    vec![
        let_(X, add(ident(P), storage_read(S))),
        assign(X, product),
        Stmt::Constrain(less(ident(X), int(1_000_000))),
        storage_write(S, hash),
        Stmt::If(
            less(ident(X), call_of(SENDER, vec![])),
            vec![storage_write(T, ident(X))],
            Some(noted),
        ),
        Stmt::While(
            less(ident(X), int(5)),
            vec![assign(X, add(ident(X), int(1)))],
        ),
        for_(
            I,
            int(0),
            ident(P),
            vec![assign(X, add(ident(X), ident(I)))],
        ),
        Stmt::Expr(call_of(HELPER, vec![ident(X), int(2)])),
        Stmt::If(early, vec![returning(ident(X))], None),
    ]
}

fn call_of(name: u16, arguments: Vec<Expr>) -> Expr {
    crate::build::call(name, arguments)
}

/// The statements of a part that have no blocks.
fn straight() -> Vec<Stmt> {
    let hash = call_of(POSEIDON, vec![ident(X), ident(P)]);
    vec![
        assign(X, add(ident(P), storage_read(S))),
        Stmt::Constrain(less(ident(X), int(1_000_000))),
        storage_write(S, hash),
        emit(EVENT, vec![ident(X), ident(P)]),
        Stmt::Expr(call_of(HELPER, vec![ident(X), int(2)])),
    ]
}

fn function_of_body(name: u16, mut body: Vec<Stmt>) -> Function {
    body.push(returning(ident(P)));
    function_of(&[(P, U64), (Q, POINT)], function(name, Some(U64), body))
}

/// A contract that declares what the statements use.
fn declaring(functions: Vec<Function>) -> Contract {
    let params = [(P, U64), (Q, U64)];
    let sum = vec![returning(add(ident(P), ident(Q)))];
    let helper = function_of(&params, function(HELPER, Some(U64), sum));
    let functions = [vec![helper], functions].concat();
    Contract {
        storage: vec![field(S, U64), field(T, U64)],
        structs: vec![structure(POINT, vec![field(S, U64), field(T, U64)])],
        ..contract(CONTRACT, functions)
    }
}

pub fn of_parts(shape: Shape, parts: usize) -> Contract {
    let repeated = |part: fn() -> Vec<Stmt>, times| (0..times).flat_map(|_| part()).collect();
    let functions = match shape {
        Shape::Straight => {
            let body = [vec![let_(X, int(0))], repeated(straight, parts)].concat();
            vec![function_of_body(FUNCTION, body)]
        }
        Shape::Mixed => (0..parts.div_ceil(2))
            .map(|i| (FUNCTION + i as u16, 2.min(parts - 2 * i)))
            .map(|(name, parts)| function_of_body(name, repeated(mixed, parts)))
            .collect(),
    };
    declaring(functions)
}

/// The contract of the most parts whose sheet has at most `length` bytes.
pub fn longest(length: usize, of_parts: impl Fn(usize) -> Contract) -> Contract {
    let bytes = |parts| contract_write::contract(&of_parts(parts)).len();
    let parts = (1..).take_while(|&parts| bytes(parts) <= length).last();
    of_parts(parts.unwrap_or(0))
}

/// A contract of about 100 bytes.
pub fn small() -> Contract {
    let body = vec![
        let_(X, add(ident(P), storage_read(S))),
        storage_write(S, ident(X)),
        returning(ident(X)),
    ];
    let only = function_of(&[(P, U64)], function(FUNCTION, Some(U64), body));
    Contract {
        storage: vec![field(S, U64)],
        ..contract(CONTRACT, vec![only])
    }
}

/// Adds structs of 55 fields and storage fields, before those that are used.
fn with_declarations(mut contract: Contract, structs: u16, storage: u16) -> Contract {
    let fields = |count| (0..count).map(|i| field(MORE + i, U64));
    let more = (0..structs).map(|i| structure(MORE + i, fields(55).collect()));
    contract.structs.splice(0..0, more);
    contract.storage.splice(0..0, fields(storage));
    contract
}

fn maker(label: String, contract: impl Fn() -> Contract + 'static) -> Maker {
    Box::new(move || row(label.clone(), &contract()))
}

/// From about 100 bytes to 30 kB. Statements of more than about 16 kB give a
/// program of more than 32,768 bytes: the last row is refused with 31, when all
/// has been lowered; the one before has declarations besides.
pub fn sizes() -> Vec<Maker> {
    let mixed = |length| longest(length, |parts| of_parts(Shape::Mixed, parts));
    let with_more = || {
        let parts = |parts| with_declarations(of_parts(Shape::Mixed, parts), 63, 254);
        longest(30_000, parts)
    };
    vec![
        maker("1 function".into(), small),
        maker("mixed".into(), move || mixed(3_000)),
        maker("mixed".into(), move || mixed(12_000)),
        maker("mixed, 64 structs, 256 storage fields".into(), with_more),
        maker("mixed, refused".into(), move || mixed(30_000)),
    ]
}

/// Lengths from 1 kB to 30 kB, of both shapes.
pub fn growth() -> Vec<Maker> {
    let shapes = [
        (Shape::Mixed, "mixed"),
        (Shape::Straight, "straight, 1 function"),
    ];
    let mut rows = Vec::new();
    for (shape, label) in shapes {
        for length in [1_100, 2_000, 4_000, 8_000, 12_000, 16_000, 24_000, 30_000] {
            rows.push(maker(label.into(), move || {
                longest(length, |parts| of_parts(shape, parts))
            }));
        }
    }
    rows
}

/// What is found by searching, with as much as the limits allow: about 4 kB of
/// statements that use it.
pub fn searches() -> Vec<Maker> {
    vec![
        maker("reads of 1 storage field".into(), || storage_reads(1)),
        maker("reads of 256 storage fields".into(), || storage_reads(256)),
        maker("reads of 1 local".into(), || local_reads(1)),
        maker("reads of 256 locals".into(), || local_reads(256)),
        maker("calls of 2 functions".into(), || calls(2)),
        maker("calls of 64 functions".into(), || calls(64)),
        maker("fields of 1 struct of 1".into(), || field_reads(1, 1)),
        maker("fields of 64 structs of 50".into(), || field_reads(64, 50)),
    ]
}

/// How many statements a search is measured by.
const USES: u16 = 300;

fn storage_reads(fields: u16) -> Contract {
    let body = (0..USES).map(|i| Stmt::Expr(storage_read(MORE + i % fields)));
    Contract {
        storage: (0..fields).map(|i| field(MORE + i, U64)).collect(),
        ..contract(CONTRACT, vec![function(FUNCTION, None, body.collect())])
    }
}

fn local_reads(locals: u16) -> Contract {
    let held = (0..locals).map(|i| let_(MORE + i, int(1)));
    let read = (0..USES).map(|i| Stmt::Expr(ident(MORE + i % locals)));
    let body = held.chain(read).collect();
    contract(CONTRACT, vec![function(FUNCTION, None, body)])
}

fn calls(functions: u16) -> Contract {
    let body = (0..USES).map(|i| Stmt::Expr(call_of(MORE + i % functions, vec![])));
    let body: Vec<Stmt> = body.collect();
    let of = |i| if i == 0 { body.clone() } else { vec![] };
    let all = (0..functions).map(|i| function(MORE + i, Some(U64), of(i)));
    contract(CONTRACT, all.collect())
}

fn field_reads(structs: u16, fields: u16) -> Contract {
    let declared = |i| {
        structure(
            MORE + i,
            (0..fields).map(|i| field(MORE + i, U64)).collect(),
        )
    };
    let params: Vec<(u16, u16)> = (0..structs.min(16)).map(|i| (P + i, MORE + i)).collect();
    let read = |i: u16| access(ident(P + i % structs.min(16)), MORE + i % fields);
    let body = (0..USES).map(|i| Stmt::Expr(read(i))).collect();
    let reading = function_of(&params, function(FUNCTION, None, body));
    Contract {
        structs: (0..structs).map(declared).collect(),
        ..contract(CONTRACT, vec![reading])
    }
}

/// The Rust from bytes to bytes: the sheet is checked and read, the contract
/// analyzed and lowered, and the program written into the output, of which the
/// rest is cleared. Gives the length, or nothing for what is refused.
fn by_rust(sheet: &[u8], out: &mut [u8]) -> Option<usize> {
    let tree = parse::parse(sheet, kind::CONTRACT);
    let finished = match tree.malformed.or_else(|| limits::exceeded(&tree)) {
        Some(_) => None,
        None => lower_in_memory(&contract_read::contract(&tree))
            .map(|program| program_write::program(&program)),
    };
    let finished = finished.filter(|finished| finished.len() <= out.len());
    let length = finished.as_ref().map_or(0, Vec::len);
    out[..length].copy_from_slice(finished.as_deref().unwrap_or(&[]));
    out[length..].fill(0);
    finished.map(|finished| finished.len())
}

/// What the Rust itself has: `analyze` and `lower_contract`.
fn lower_in_memory(contract: &Contract) -> Option<crate::ir::IrProgram> {
    let mut analyzer = SemanticAnalyzer::new();
    let _ = analyzer.analyze(contract);
    lower::lower_contract(contract, &analyzer).ok()
}

/// Both answers and outputs are the same before anything is measured.
fn row(label: String, contract: &Contract) -> Row {
    let sheet = contract_write::contract(contract);
    let (mut out, mut rusts) = (vec![1; SHEET_LIMIT], vec![2; SHEET_LIMIT]);
    let numbers = archive::lower(&sheet, &mut out);
    let gives = match by_rust(&sheet, &mut rusts) {
        Some(length) => {
            assert_eq!(numbers, [0, length, 0, 0, 0, 0], "{label}");
            length.to_string()
        }
        None => {
            assert_eq!(numbers, [31, 0, 0, 0, 0, 0], "{label}");
            "refused, 31".into()
        }
    };
    assert!(out == rusts, "{label}: the outputs differ");
    let (first, second, contract) = (sheet.clone(), sheet.clone(), contract.clone());
    Row {
        label,
        sheet,
        operation: Operation::Lower,
        gives,
        calls: vec![
            call(move || archive::lower(black_box(&first), black_box(&mut out))),
            call(move || by_rust(black_box(&second), black_box(&mut rusts))),
            call(move || lower_in_memory(black_box(&contract))),
        ],
    }
}
