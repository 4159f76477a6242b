//! Lowering into outputs of many lengths.

use super::{catalogue, finished, rules, Case};
use crate::ast::{Contract, Stmt};
use crate::build::*;
use crate::proof_sheets;
use crate::sheet::{contract_write, SHEET_LIMIT};

const CONTRACT: u16 = 10;
const F: u16 = 11;
const G: u16 = 12;
const X: u16 = 20;
const POINT: u16 = 30;
const U64: u16 = 1;
const UNDECLARED: u16 = 99;

/// Lengths that hold the smallest program sheets, and too little for others.
pub const SMALL: usize = 60;

pub fn cases() -> Vec<Case> {
    let mut cases = Vec::new();
    for sheet in every_length() {
        let longest = finished(&sheet).map_or(SMALL, |program| program.len() + 2);
        for room in 0..=longest.max(SMALL) {
            let sheet = sheet.clone();
            cases.push(Case { sheet, room });
        }
    }
    for sheet in rules::contracts().iter().map(contract_write::contract) {
        for room in about(&sheet) {
            let sheet = sheet.clone();
            cases.push(Case { sheet, room });
        }
    }
    cases
}

/// Sheets to lower into every length of output: accepted ones with the records
/// of a program of all kinds, and one for each refusal.
fn every_length() -> Vec<Vec<u8>> {
    let proved = proof_sheets::sheets().into_iter().map(|(_, sheet)| sheet);
    let mut contracts = vec![catalogue::contract_of_all_kinds(), several_functions()];
    contracts.extend(refused_bodies().into_iter().map(of_body));
    let mut sheets: Vec<Vec<u8>> = proved.collect();
    sheets.extend(contracts.iter().map(contract_write::contract));
    let surplus = [&sheets[0][..], &[0]].concat();
    sheets.extend([vec![], surplus, vec![0; SHEET_LIMIT + 1]]);
    sheets
}

fn of_body(body: Vec<Stmt>) -> Contract {
    let taking = function_of(&[(POINT, POINT), (X, X)], function(F, None, body));
    Contract {
        structs: vec![structure(POINT, vec![field(X, U64)])],
        ..contract(CONTRACT, vec![taking, function(G, None, vec![])])
    }
}

/// A body for each refusal of the walk, and one for a call of 17 arguments.
fn refused_bodies() -> Vec<Vec<Stmt>> {
    let values = [
        ident(UNDECLARED),
        call(UNDECLARED, vec![]),
        access(ident(X), X),
        access(int(1), X),
        access(ident(POINT), UNDECLARED),
        literal(POINT, vec![]),
        mapping_read(X, int(1)),
        access(call(G, vec![]), X),
        call(5, vec![]),
        call(6, vec![]),
        call(G, vec![int(1); 17]),
    ];
    let mut bodies: Vec<Vec<Stmt>> = values.map(|value| vec![Stmt::Expr(value)]).to_vec();
    bodies.push(vec![mapping_write(X, int(1), int(1))]);
    bodies.push(vec![let_(X, int(1)); 255]);
    bodies
}

/// Functions with and without parameters, locals and more than one block; two
/// of them of one name.
fn several_functions() -> Contract {
    let block = || vec![let_(X, int(1))];
    contract(
        CONTRACT,
        vec![
            function_of(&[(X, U64), (POINT, POINT)], function(F, None, block())),
            function(G, Some(U64), vec![returning(call(F, vec![int(1), int(2)]))]),
            function(F, None, vec![Stmt::If(int(1), block(), Some(block()))]),
            function(X, None, vec![]),
            function(G, Some(2), vec![for_(X, int(0), int(1), block())]),
        ],
    )
}

/// Just too little for the finished sheet, just enough, and more by one.
fn about(sheet: &[u8]) -> Vec<usize> {
    match finished(sheet) {
        Some(program) => (program.len() - 1..=program.len() + 1).collect(),
        None => vec![0, SMALL],
    }
}
