//! Contract sheets of any depth, one for each way that records nest.

use crate::ast::{BinOp, Expr, Stmt};
use crate::build::*;
use crate::sheet::{contract_write, kind, SHEET_LIMIT};

const X: u16 = 20;

/// Each way of nesting, from shallow to past the depth of 40, and the deepest
/// sheets that are possible.
pub fn sheets() -> Vec<Vec<u8>> {
    let mut sheets = Vec::new();
    for levels in 0..42 {
        sheets.extend(expressions(levels).map(|value| in_function(Stmt::Expr(value))));
        if levels < 22 {
            sheets.extend(statements(levels, leaf()).map(in_function));
        }
    }
    for inner in [kind::IDENT, kind::STORAGE_READ, kind::BINARY, 0] {
        sheets.extend([30, 38, 1000, SHEET_LIMIT / 8 - 6].map(|levels| accesses(levels, inner)));
    }
    sheets
}

fn in_function(statement: Stmt) -> Vec<u8> {
    contract_write::contract(&contract(10, vec![function(11, None, vec![statement])]))
}

/// Expressions that nest this many levels below the outermost one.
fn expressions(levels: u32) -> [Expr; 8] {
    let nest = |step: fn(Expr) -> Expr| (0..levels).fold(call(7, vec![]), |inner, _| step(inner));
    [
        nest(|inner| access(inner, X)),
        nest(|inner| binary(inner, BinOp::Add, int(1))),
        nest(|inner| binary(int(1), BinOp::Gte, inner)),
        nest(|inner| call(5, vec![int(1), inner])),
        nest(|inner| call(7, vec![inner])),
        nest(|inner| call(11, vec![inner])),
        nest(|inner| mapping_read(X, inner)),
        nest(|inner| literal(X, vec![(X, inner)])),
    ]
}

/// Contracts of depth 40 whose statements nest and whose innermost statement
/// has an expression that nests as deep as is left; and such with an empty
/// block there.
pub fn of_depth_40() -> Vec<Vec<u8>> {
    // A contract is at 1, its function at 2; a statement in the block of a
    // statement is two deeper.
    let mut bodies = Vec::new();
    for levels in 0..=18 {
        for value in expressions(36 - 2 * levels) {
            bodies.extend(statements(levels, Stmt::Expr(value.clone())));
            bodies.extend(statements(levels, let_(X, value)));
        }
    }
    bodies.extend(statements(18, Stmt::If(int(1), vec![], Some(vec![]))));
    bodies.extend(statements(18, Stmt::While(int(1), vec![])));
    bodies.extend(statements(18, for_(X, int(0), int(1), vec![])));
    bodies.into_iter().map(in_function).collect()
}

fn leaf() -> Stmt {
    Stmt::Expr(call(7, vec![]))
}

/// Statements that nest this many times around another, each time in a block.
fn statements(levels: u32, leaf: Stmt) -> [Stmt; 6] {
    let nest = |step: fn(Stmt) -> Stmt| (0..levels).fold(leaf.clone(), |inner, _| step(inner));
    [
        nest(|inner| Stmt::If(int(1), vec![inner], None)),
        nest(|inner| Stmt::If(int(1), vec![], Some(vec![inner]))),
        nest(|inner| Stmt::If(int(1), vec![Stmt::Return(None)], Some(vec![inner]))),
        nest(|inner| Stmt::While(int(1), vec![inner])),
        nest(|inner| for_(X, int(0), int(1), vec![inner])),
        nest(|inner| Stmt::If(int(1), vec![Stmt::Return(None), inner], None)),
    ]
}

/// Field accesses nested some levels around a record of the given kind and 8
/// bytes, written from the outside in: the writer's recursion would not bear
/// thousands of levels.
pub fn accesses(levels: usize, inner: u16) -> Vec<u8> {
    let outside = [kind::CONTRACT, kind::FUNCTION, kind::EXPR];
    let mut sheet = Vec::new();
    let total = 8 + 14 + 6 + 8 * (levels + 1);
    for record in outside.into_iter().chain(vec![kind::FIELD_ACCESS; levels]) {
        start(&mut sheet, total, record);
        match record {
            kind::FUNCTION => sheet.extend([11, 0, 255, 255, 0, 0, 0, 0]),
            kind::EXPR => (),
            _ => sheet.extend([10, 0]),
        }
    }
    start(&mut sheet, total, inner);
    sheet.extend([9, 0]);
    sheet
}

/// The header of a record that goes on to the end of the sheet.
fn start(sheet: &mut Vec<u8>, total: usize, kind: u16) {
    sheet.extend(((total - sheet.len()) as u32).to_le_bytes());
    sheet.extend(kind.to_le_bytes());
}
