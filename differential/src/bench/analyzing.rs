//! The contract sheets that the body check is measured by. It accepts them all.

use super::add;
use super::lowering::{longest, of_parts, small, Shape};
use crate::ast::{BinOp, Contract, Expr, Function, Stmt};
use crate::build::*;
use crate::sheet::contract_write;

const CONTRACT: u16 = 10;
const FUNCTION: u16 = 11;
const U64: u16 = 1;
/// The parameter.
const P: u16 = 200;
/// A loop's variable.
const I: u16 = 201;
const RECORD: u16 = 202;
/// The names of further declarations.
const MORE: u16 = 1_000;

/// A sheet to be measured.
pub struct Measured {
    pub label: &'static str,
    pub sheet: Vec<u8>,
}

fn measured(label: &'static str, contract: Contract) -> Measured {
    let sheet = contract_write::contract(&contract);
    Measured { label, sheet }
}

/// Ordinary contracts of about 100 bytes, 3 kB, 12 kB and 30 kB.
pub fn sizes() -> Vec<Measured> {
    let mixed = |length| longest(length, |parts| of_parts(Shape::Mixed, parts));
    vec![
        measured("1 function", small()),
        measured("mixed", mixed(3_000)),
        measured("mixed", mixed(12_000)),
        measured("mixed", mixed(30_000)),
    ]
}

/// As much as a sheet holds of what is found by searching, or kept for each
/// name, and of what nests.
pub fn worst() -> Vec<Measured> {
    let beside = |i: u16| MORE + i;
    vec![
        measured("2,000 Lets, the one before read", lets(beside, |i| i - 1)),
        measured("2,000 Lets, the first read", lets(beside, |_| 0)),
        measured("2,000 Lets, any read", lets(beside, |i| i * 7 % i)),
        measured("2,000 Lets, 64 by 64 of one remainder", {
            lets(of_remainders, |i| i * 7 % i)
        }),
        measured("500 Fors behind 1,000 Lets", loops()),
        measured("64 fields, all used", fields_used(|i| i)),
        measured("64 fields, the first used", fields_used(|_| 0)),
        measured("64 functions, 64 empty structs", calls(0, 31)),
        measured("64 functions, 64 structs of 50", calls(50, 16)),
        measured("statements of depth 40", statements(60)),
        measured("expressions of depth 40", expressions(70)),
    ]
}

fn with_number(body: Vec<Stmt>) -> Function {
    function_of(&[(P, U64)], function(FUNCTION, None, body))
}

/// Names that share their remainder by 1,024, as many as there are: 64 of one,
/// then 64 of the next.
fn of_remainders(position: u16) -> u16 {
    1_024 * (position % 64) + 100 + position / 64
}

const LETS: u16 = 2_000;

/// Lets of different names, the i-th of which reads that of position `read`.
fn lets(name: fn(u16) -> u16, read: fn(u16) -> u16) -> Contract {
    let value = |i: u16| match i {
        0 => ident(P),
        i => ident(name(read(i))),
    };
    let body = (0..LETS).map(|i| let_(name(i), value(i)));
    contract(CONTRACT, vec![with_number(body.collect())])
}

/// Fors, each of which begins with all names that are known.
fn loops() -> Contract {
    let held = (0..1_000).map(|i| let_(MORE + i, ident(P)));
    let looping = |i| for_(I, ident(MORE + i), ident(P), vec![]);
    let body = held.chain((0..500).map(looping));
    contract(CONTRACT, vec![with_number(body.collect())])
}

/// Literals of all fields of a struct of 64, each of a field of a parameter.
fn fields_used(read: fn(u16) -> u16) -> Contract {
    let given = |i| (MORE + i, access(ident(P), MORE + read(i)));
    let value = literal(RECORD, (0..64).map(given).collect());
    let body = vec![Stmt::Expr(value); 20];
    let using = function_of(&[(P, RECORD)], function(FUNCTION, None, body));
    let declared = (0..64).map(|i| field(MORE + i, U64)).collect();
    Contract {
        structs: vec![structure(RECORD, declared)],
        ..contract(CONTRACT, vec![using])
    }
}

/// 64 functions that call each other, behind 256 storage fields and 64 structs.
fn calls(fields: u16, each: u16) -> Contract {
    let declared = |count| (0..count).map(|i| field(MORE + i, U64)).collect::<Vec<_>>();
    let called = |i: u16| Stmt::Expr(call(MORE + i % 64, vec![]));
    let own = |i: u16| {
        let body = (0..each).map(|k| called(i + 2 * k + 1)).collect();
        function(MORE + i, Some(U64), body)
    };
    Contract {
        storage: declared(256),
        structs: (0..64)
            .map(|i| structure(MORE + i, declared(fields)))
            .collect(),
        ..contract(CONTRACT, (0..64).map(own).collect())
    }
}

/// Statements that nest in 18 blocks of each kind in turn.
fn statements(times: usize) -> Contract {
    let test = || binary(ident(P), BinOp::Lt, ident(P));
    let step = |inner: Stmt, level: u16| match level % 4 {
        0 => Stmt::If(test(), vec![inner], None),
        1 => Stmt::While(ident(P), vec![inner]),
        2 => for_(MORE + level, ident(P), ident(P), vec![inner]),
        _ => Stmt::If(ident(P), vec![], Some(vec![inner])),
    };
    let nested = (0..18).fold(let_(I, ident(P)), step);
    contract(CONTRACT, vec![with_number(vec![nested; times])])
}

/// Expressions that nest in 36 others of each kind in turn.
fn expressions(times: usize) -> Contract {
    let step = |inner: Expr, level: u16| match level % 4 {
        0 => add(inner, ident(P)),
        1 => mapping_read(MORE, inner),
        2 => call(FUNCTION, vec![inner]),
        _ => binary(ident(P), BinOp::Gte, inner),
    };
    let nested = (0..36).fold(ident(P), step);
    let body = vec![Stmt::Expr(nested); times];
    let own = function_of(&[(P, U64)], function(FUNCTION, Some(U64), body));
    contract(CONTRACT, vec![own])
}
