//! Contracts whose program sheets end about 32,768 bytes: each kind of record
//! across the limit, and what is met behind it.

use super::Case;
use crate::ast::{BinOp, Contract, Expr, Function, Stmt};
use crate::build::*;
use crate::sheet::{contract_write, SHEET_LIMIT};

const CONTRACT: u16 = 10;
const F: u16 = 11;
const G: u16 = 12;
const X: u16 = 20;
const P: u16 = 21;
const POINT: u16 = 30;
const UNDECLARED: u16 = 99;
const U64: u16 = 1;

/// What a program of one function has beside its block's instructions: the
/// program, the function, its block, its Return and its name.
const AROUND: usize = 6 + 18 + 8 + 8 + 10;

pub fn cases() -> Vec<Case> {
    let mut contracts = across();
    contracts.extend(later_functions());
    contracts.extend(refused_behind());
    contracts
        .iter()
        .map(|contract| Case::of(contract_write::contract(contract)))
        .collect()
}

/// Statements that are lowered to so many bytes, an even number: an Emit takes
/// 10 of them, a storage read 16.
pub fn filler(bytes: usize) -> Vec<Stmt> {
    let mut rest = bytes;
    let mut body = Vec::new();
    while !rest.is_multiple_of(10) {
        body.push(Stmt::Expr(storage_read(X)));
        rest -= 16;
    }
    body.extend(vec![emit(X, vec![]); rest / 10]);
    body
}

/// A contract that declares what the statements below use.
fn declaring(functions: Vec<Function>) -> Contract {
    Contract {
        storage: vec![field(X, U64)],
        structs: vec![structure(POINT, vec![field(X, U64)])],
        ..contract(CONTRACT, functions)
    }
}

/// One function of which some bytes come first.
fn behind(bytes: usize, last: Vec<Stmt>) -> Contract {
    declaring(vec![function(F, None, [filler(bytes), last].concat())])
}

fn test() -> Expr {
    binary(int(1), BinOp::Lt, int(2))
}

/// A statement of each kind, and an expression of each.
fn every_kind() -> Vec<Vec<Stmt>> {
    let values = [
        int(1),
        storage_read(X),
        test(),
        call(5, vec![int(1), int(2)]),
        call(8, vec![]),
        call(F, vec![int(1), int(2), int(3)]),
    ];
    let mut bodies: Vec<Vec<Stmt>> = values.map(|value| vec![Stmt::Expr(value)]).to_vec();
    bodies.extend([
        vec![let_(P, int(1)), assign(P, ident(P))],
        vec![Stmt::Constrain(test())],
        vec![storage_write(X, int(1))],
        vec![emit(X, vec![int(1), int(2)])],
        vec![Stmt::If(test(), vec![let_(P, int(1))], Some(vec![]))],
        vec![Stmt::If(test(), vec![Stmt::Return(None)], None)],
        vec![Stmt::While(test(), vec![let_(P, int(1))])],
        vec![for_(P, int(0), int(1), vec![assign(P, int(1))])],
        vec![returning(int(1))],
    ]);
    bodies
}

/// Each kind from as far before the limit as it needs, step by step to it.
fn across() -> Vec<Contract> {
    let mut contracts = Vec::new();
    for last in every_kind() {
        for before in (0..=160).step_by(4) {
            let bytes = SHEET_LIMIT - AROUND - before;
            contracts.push(behind(bytes, last.clone()));
        }
    }
    contracts
}

/// Functions behind the one that fills most of the sheet: their heads,
/// parameters, blocks and names come to stand across the limit.
fn later_functions() -> Vec<Contract> {
    let mut contracts = Vec::new();
    for before in (0..=240).step_by(2) {
        let first = function(F, None, filler(SHEET_LIMIT - AROUND - before));
        let params = [(X, U64), (P, POINT)];
        let second = function_of(&params, function(G, None, vec![let_(P, int(1))]));
        let third = function(F, None, vec![]);
        let last = function(POINT, Some(U64), vec![returning(int(1))]);
        contracts.push(declaring(vec![first.clone(), third.clone()]));
        contracts.push(declaring(vec![first.clone(), second.clone()]));
        contracts.push(declaring(vec![
            third.clone(),
            second.clone(),
            first.clone(),
        ]));
        contracts.push(declaring(vec![second, first, third, last]));
    }
    contracts
}

/// What the walk refuses behind more than fits, in the same function and in
/// the next one: 31 comes last.
fn refused_behind() -> Vec<Contract> {
    let values = [
        ident(UNDECLARED),
        storage_read(UNDECLARED),
        call(UNDECLARED, vec![]),
        access(call(G, vec![]), X),
        access(int(1), X),
        literal(POINT, vec![]),
        mapping_read(X, int(1)),
        call(5, vec![]),
        call(6, vec![]),
    ];
    let mut lasts: Vec<Vec<Stmt>> = values.map(|value| vec![Stmt::Expr(value)]).to_vec();
    lasts.extend([
        vec![mapping_write(X, int(1), int(1))],
        vec![let_(P, int(1)); 257],
        vec![Stmt::If(int(1), vec![], None); 86],
        vec![Stmt::Return(None), Stmt::Expr(ident(UNDECLARED))],
        vec![],
    ]);
    let mut contracts = Vec::new();
    for last in lasts {
        for bytes in [SHEET_LIMIT - AROUND, SHEET_LIMIT, SHEET_LIMIT + 100] {
            let void = function(G, None, vec![]);
            let mut contract = behind(bytes, last.clone());
            contract.functions.push(void.clone());
            contracts.push(contract);
            let functions = [filler(bytes), last.clone()].map(|body| function(F, None, body));
            let [first, second] = functions;
            contracts.push(declaring(vec![first.clone(), second.clone(), void.clone()]));
            contracts.push(declaring(vec![second, void, first]));
        }
    }
    contracts
}
