//! Small contracts for each rule of the body check.

use crate::ast::{BinOp, Contract, Expr, Function, Stmt};
use crate::build::*;

const F: u16 = 11;
const G: u16 = 12;
const MAIN: u16 = 13;
const X: u16 = 20;
const Y: u16 = 21;
/// Parameters: a truth value, a struct value, and one of an undeclared struct.
const B: u16 = 22;
const P: u16 = 23;
const Q: u16 = 24;
const POINT: u16 = 30;
const PAIR: u16 = 31;
const STORED: u16 = 32;
const EVENT: u16 = 33;
/// A name that nothing declares, and a struct that nothing declares.
const LOST: u16 = 99;
const ABSENT_STRUCT: u16 = 98;
const U64: u16 = 1;
const BOOL: u16 = 2;

pub fn contracts() -> Vec<Contract> {
    let bodies = [
        mistakes().into_iter().map(|s| vec![s]).collect(),
        orders(),
        inside(),
        typed_values(),
        literals(),
        accesses(),
        after_returns(),
    ];
    let bodies = bodies.into_iter().flatten();
    let mut contracts: Vec<Contract> = bodies.map(around).collect();
    contracts.extend(later_functions());
    contracts
}

/// A contract whose middle function has the body; it gives a number.
pub fn around(body: Vec<Stmt>) -> Contract {
    of_main(Some(U64), body)
}

/// The middle function has a number X, a truth value B, a struct value P and
/// one of an undeclared struct Q as parameters; F takes and gives nothing, G
/// takes a number and a truth value and gives a number.
pub fn of_main(returns: Option<u16>, body: Vec<Stmt>) -> Contract {
    let params = [(X, U64), (B, BOOL), (P, POINT), (Q, ABSENT_STRUCT)];
    declaring(vec![
        function(F, None, vec![]),
        function_of(&params, function(MAIN, returns, body)),
        function_of(&params[..2], function(G, Some(U64), vec![])),
    ])
}

/// A contract of two structs and a storage field.
pub fn declaring(functions: Vec<Function>) -> Contract {
    let point = structure(POINT, vec![field(X, U64), field(Y, BOOL)]);
    let pair = structure(PAIR, vec![field(X, POINT), field(Y, ABSENT_STRUCT)]);
    Contract {
        storage: vec![field(STORED, U64)],
        structs: vec![point, pair],
        ..contract(10, functions)
    }
}

/// A value of unknown type.
pub fn unknown() -> Expr {
    access(ident(Q), X)
}

/// A value with one error of each text that an expression raises, in order:
/// 4 to 13.
pub fn mistaken_values() -> Vec<Expr> {
    vec![
        ident(LOST),
        access(ident(P), LOST),
        access(ident(X), Y),
        literal(POINT, vec![(X, ident(B))]),
        literal(POINT, vec![(LOST, int(1))]),
        literal(ABSENT_STRUCT, vec![]),
        call(G, vec![]),
        call(G, vec![ident(B), ident(B)]),
        call(LOST, vec![]),
        binary(ident(X), BinOp::Lt, ident(B)),
    ]
}

/// A statement with one error of each text, in order.
pub fn mistakes() -> Vec<Stmt> {
    let statements = vec![
        assign(X, ident(B)),
        assign(LOST, int(1)),
        returning(ident(B)),
    ];
    let values = mistaken_values().into_iter().map(Stmt::Expr);
    statements.into_iter().chain(values).collect()
}

/// Each error before each other: one statement after the other, and in
/// different blocks.
fn orders() -> Vec<Vec<Stmt>> {
    let mut bodies = Vec::new();
    for first in mistakes() {
        for second in mistakes() {
            let (first, second) = (|| first.clone(), || second.clone());
            let arms = Stmt::If(ident(B), vec![first()], Some(vec![second()]));
            bodies.push(vec![first(), second()]);
            bodies.push(vec![arms]);
            bodies.push(vec![Stmt::While(ident(B), vec![first()]), second()]);
            bodies.push(vec![for_(Y, int(0), int(1), vec![first()]), second()]);
        }
    }
    for first in mistaken_values() {
        for second in mistaken_values() {
            bodies.extend(of_two(&first, &second).map(|statement| vec![statement]));
        }
        for second in mistakes() {
            bodies.extend(of_value_and_block(&first, &second).map(|statement| vec![statement]));
        }
    }
    bodies
}

/// Two values in one statement or expression.
fn of_two(first: &Expr, second: &Expr) -> [Stmt; 9] {
    let pair = || vec![first.clone(), second.clone()];
    let (first, second) = (|| first.clone(), || second.clone());
    let values = [
        binary(first(), BinOp::Eq, second()),
        literal(POINT, vec![(X, first()), (Y, second())]),
        literal(POINT, vec![(LOST, first()), (Y, second())]),
        call(G, pair()),
        call(5, pair()),
        call(LOST, pair()),
    ];
    let [a, b, c, d, e, f] = values.map(Stmt::Expr);
    let written = mapping_write(LOST, first(), second());
    let looping = for_(Y, first(), second(), vec![]);
    [a, b, c, d, e, f, written, looping, emit(EVENT, pair())]
}

/// A value, and a statement in the block behind it.
fn of_value_and_block(value: &Expr, inner: &Stmt) -> [Stmt; 5] {
    let value = || value.clone();
    let block = || vec![inner.clone()];
    [
        Stmt::If(value(), block(), None),
        Stmt::If(value(), vec![], Some(block())),
        Stmt::While(value(), block()),
        for_(Y, value(), int(1), block()),
        for_(Y, int(1), value(), block()),
    ]
}

/// Each error in every place of every statement and expression.
fn inside() -> Vec<Vec<Stmt>> {
    let mut bodies = Vec::new();
    for value in mistaken_values() {
        bodies.extend(statements_of(&value).into_iter().map(|s| vec![s]));
        for outer in expressions_of(&value) {
            bodies.extend(statements_of(&outer).into_iter().map(|s| vec![s]));
        }
    }
    for inner in mistakes() {
        let blocks = of_value_and_block(&ident(B), &inner);
        for outer in blocks {
            let nested = of_value_and_block(&ident(B), &outer);
            bodies.extend(nested.map(|statement| vec![statement]));
            bodies.push(vec![outer]);
        }
    }
    bodies
}

/// A value in every place of a statement.
pub fn statements_of(value: &Expr) -> Vec<Stmt> {
    let value = || value.clone();
    vec![
        let_(Y, value()),
        Stmt::Constrain(value()),
        assign(X, value()),
        assign(LOST, value()),
        storage_write(STORED, value()),
        storage_write(LOST, value()),
        mapping_write(LOST, value(), int(1)),
        mapping_write(LOST, int(1), value()),
        Stmt::If(value(), vec![], None),
        Stmt::While(value(), vec![]),
        for_(Y, value(), int(1), vec![]),
        for_(Y, int(1), value(), vec![]),
        returning(value()),
        emit(EVENT, vec![value(), int(1)]),
        emit(EVENT, vec![int(1), value()]),
        Stmt::Expr(value()),
    ]
}

/// A value in every place of an expression.
fn expressions_of(value: &Expr) -> Vec<Expr> {
    let value = || value.clone();
    vec![
        mapping_read(LOST, value()),
        access(value(), X),
        literal(POINT, vec![(X, value()), (Y, ident(B))]),
        literal(POINT, vec![(X, int(1)), (Y, value())]),
        literal(POINT, vec![(LOST, value())]),
        literal(ABSENT_STRUCT, vec![(X, value())]),
        binary(value(), BinOp::Add, ident(B)),
        binary(ident(B), BinOp::Gte, value()),
        call(G, vec![value(), ident(B)]),
        call(G, vec![int(1), value()]),
        call(G, vec![value()]),
        call(5, vec![value(), ident(B)]),
        call(6, vec![int(1), value()]),
        call(7, vec![value()]),
        call(LOST, vec![value()]),
    ]
}

/// Values of several types in every place: what the rules say of them.
fn typed_values() -> Vec<Vec<Stmt>> {
    let values = [int(1), ident(B), ident(P), unknown(), call(F, vec![])];
    let mut bodies = Vec::new();
    for value in values {
        bodies.extend(statements_of(&value).into_iter().map(|s| vec![s]));
        for outer in expressions_of(&value) {
            bodies.extend(statements_of(&outer).into_iter().map(|s| vec![s]));
        }
    }
    bodies
}

/// Struct literals: every pair of fields, declared or not, with values of
/// every type; no field; a struct that is not declared.
fn literals() -> Vec<Vec<Stmt>> {
    let values = || [int(1), ident(B), ident(P), ident(Q), unknown(), ident(LOST)];
    let mut fields = vec![vec![]];
    for name in [X, Y, LOST] {
        for value in values() {
            fields.push(vec![(name, value.clone())]);
            for other in [X, Y, LOST] {
                fields.extend(values().map(|second| vec![(name, value.clone()), (other, second)]));
            }
        }
    }
    let of = |fields: &Vec<(u16, Expr)>| {
        let all = [POINT, PAIR, ABSENT_STRUCT];
        all.map(|name| vec![Stmt::Expr(literal(name, fields.clone()))])
    };
    fields.iter().flat_map(of).collect()
}

/// Fields of values of every type, and fields of these.
fn accesses() -> Vec<Vec<Stmt>> {
    let pair = literal(PAIR, vec![]);
    let bases = [
        int(1),
        ident(B),
        ident(P),
        ident(Q),
        ident(LOST),
        pair,
        literal(ABSENT_STRUCT, vec![]),
        call(F, vec![]),
        call(G, vec![]),
        call(LOST, vec![]),
        storage_read(P),
        mapping_read(P, ident(P)),
        binary(ident(P), BinOp::Eq, ident(P)),
        binary(unknown(), BinOp::Eq, ident(P)),
    ];
    let mut bodies = Vec::new();
    for base in bases {
        for first in [X, Y, LOST] {
            let inner = access(base.clone(), first);
            let outer = [X, Y, LOST].map(|second| access(inner.clone(), second));
            let used = outer.into_iter().chain([inner]);
            bodies.extend(used.map(|value| vec![let_(Y, value), assign(X, ident(Y))]));
        }
    }
    bodies
}

/// Statements after a Return, and after an If whose arms return.
fn after_returns() -> Vec<Vec<Stmt>> {
    let done = || returning(int(1));
    let mut bodies = Vec::new();
    for wrong in mistakes() {
        let arms = Stmt::If(ident(B), vec![done()], Some(vec![done()]));
        bodies.push(vec![done(), wrong.clone()]);
        bodies.push(vec![arms, wrong.clone()]);
        let inner = || vec![done(), wrong.clone()];
        bodies.extend(in_blocks(inner()).map(|block| vec![block]));
    }
    bodies
}

/// Statements in each kind of block.
pub fn in_blocks(body: Vec<Stmt>) -> [Stmt; 4] {
    [
        Stmt::If(ident(B), body.clone(), None),
        Stmt::If(ident(B), vec![], Some(body.clone())),
        Stmt::While(ident(B), body.clone()),
        for_(EVENT, int(0), int(1), body),
    ]
}

/// An error in each of two functions, in the first or in the last.
fn later_functions() -> Vec<Contract> {
    let mut contracts = Vec::new();
    for first in mistakes() {
        for second in mistakes() {
            let mut contract = around(vec![first.clone()]);
            let last = around(vec![second]).functions.swap_remove(1);
            contract.functions.push(last);
            contracts.push(contract.clone());
            contract.functions[1].body.clear();
            contracts.push(contract);
        }
    }
    contracts
}
