//! Small contracts for each rule of document 01's section on lowering.

use crate::ast::{BinOp, Contract, Expr, Function, Stmt};
use crate::build::*;

const F: u16 = 11;
const G: u16 = 12;
const X: u16 = 20;
const Y: u16 = 21;
const P: u16 = 22;
const POINT: u16 = 30;
const STORED: u16 = 31;
const U64: u16 = 1;
/// Names that nothing declares.
const LOST: [u16; 3] = [97, 98, 99];

pub fn contracts() -> Vec<Contract> {
    let mut contracts = Vec::new();
    contracts.extend(scopes().into_iter().map(around));
    contracts.extend(first_mistakes().into_iter().map(around));
    contracts.extend(ends().into_iter().map(around));
    for value in [call(F, vec![]), ident(LOST[0])] {
        contracts.extend(value_places(&value).into_iter().map(|s| around(vec![s])));
    }
    contracts.extend(types());
    contracts.extend(repeated_names());
    contracts
}

fn lost(position: usize) -> Expr {
    ident(LOST[position])
}

fn test() -> Expr {
    binary(int(1), BinOp::Lt, int(2))
}

/// A contract with a body between two functions, one void and one not. The
/// body's function has a number X and a struct value P as parameters.
fn around(body: Vec<Stmt>) -> Contract {
    let params = [(X, U64), (P, POINT)];
    declaring(vec![
        function(F, None, vec![]),
        function_of(&params, function(13, None, body)),
        function(G, Some(U64), vec![returning(int(1))]),
    ])
}

/// A contract with a storage field and a struct.
fn declaring(functions: Vec<Function>) -> Contract {
    Contract {
        storage: vec![field(STORED, U64)],
        structs: vec![structure(POINT, vec![field(X, U64), field(Y, U64)])],
        ..contract(10, functions)
    }
}

fn read(name: u16) -> Stmt {
    Stmt::Expr(ident(name))
}

fn read_field() -> Stmt {
    Stmt::Expr(access(ident(P), Y))
}

/// Which variable serves.
fn scopes() -> Vec<Vec<Stmt>> {
    let shadowing = for_(P, access(ident(P), X), access(ident(P), Y), vec![read(P)]);
    let counting = for_(
        Y,
        int(0),
        int(1),
        vec![assign(Y, ident(Y)), let_(Y, test())],
    );
    let mut bodies = vec![
        vec![let_(Y, ident(Y))],
        vec![let_(Y, int(1)), let_(Y, ident(Y))],
        vec![let_(X, ident(P)), let_(P, ident(X)), read_field()],
        vec![for_(Y, ident(Y), int(1), vec![])],
        vec![for_(Y, int(0), ident(Y), vec![])],
        vec![shadowing, read_field()],
        vec![counting, read(Y)],
        vec![Stmt::If(test(), vec![let_(Y, int(1))], Some(vec![read(Y)]))],
    ];
    let shadow = || let_(P, int(1));
    for statement in inside(vec![shadow(), read(P), assign(P, int(2))]) {
        bodies.push(vec![statement, read_field()]);
    }
    for statement in inside(vec![let_(Y, int(1)), assign(X, ident(Y))]) {
        bodies.push(vec![statement.clone(), read(X)]);
        bodies.push(vec![statement, read(Y)]);
    }
    for statement in inside(vec![read_field(), shadow(), read_field()]) {
        bodies.push(vec![statement]);
    }
    bodies
}

/// Statements in each kind of block.
fn inside(body: Vec<Stmt>) -> [Stmt; 4] {
    [
        Stmt::If(test(), body.clone(), None),
        Stmt::If(test(), vec![], Some(body.clone())),
        Stmt::While(test(), body.clone()),
        for_(LOST[2], int(0), int(1), body),
    ]
}

/// Statements and values with several mistakes, of which the first that is met
/// is answered.
fn first_mistakes() -> Vec<Vec<Stmt>> {
    let values = mistaken_values().into_iter().map(Stmt::Expr);
    let statements = mistaken_statements().into_iter();
    statements
        .chain(values)
        .map(|statement| vec![statement])
        .collect()
}

fn mistaken_statements() -> Vec<Stmt> {
    let wrong = |position| vec![assign(X, lost(position))];
    vec![
        storage_write(LOST[2], lost(0)),
        storage_write(STORED, lost(0)),
        assign(LOST[2], lost(0)),
        mapping_write(LOST[2], lost(0), lost(1)),
        for_(X, lost(0), lost(1), wrong(2)),
        Stmt::If(lost(0), wrong(1), Some(wrong(2))),
        Stmt::If(test(), wrong(1), Some(wrong(2))),
        Stmt::While(lost(0), wrong(1)),
        emit(LOST[2], vec![lost(0), lost(1)]),
        emit(LOST[2], vec![int(1), lost(1)]),
    ]
}

fn mistaken_values() -> Vec<Expr> {
    let pair = || vec![lost(0), lost(1)];
    vec![
        storage_read(LOST[0]),
        mapping_read(LOST[2], lost(0)),
        literal(POINT, vec![(X, lost(0))]),
        literal(LOST[2], vec![]),
        binary(lost(0), BinOp::Add, lost(1)),
        access(lost(0), LOST[1]),
        access(ident(P), LOST[1]),
        access(int(1), X),
        access(access(ident(P), X), X),
        call(5, vec![lost(0)]),
        call(5, pair()),
        call(5, vec![lost(0), lost(1), lost(2)]),
        call(6, pair()),
        call(7, pair()),
        call(8, pair()),
        call(9, pair()),
        call(LOST[2], pair()),
        call(G, pair()),
        call(F, pair()),
    ]
}

/// What is skipped after a Return, and which blocks end open.
fn ends() -> Vec<Vec<Stmt>> {
    let done = || vec![Stmt::Return(None)];
    let wrong = || mapping_write(X, lost(0), lost(1));
    let both = || Stmt::If(test(), done(), Some(done()));
    vec![
        vec![Stmt::Return(None), wrong()],
        vec![both(), wrong()],
        vec![both(), Stmt::Expr(int(1))],
        vec![Stmt::If(test(), vec![Stmt::Return(None), wrong()], None)],
        vec![Stmt::If(
            test(),
            vec![both(), Stmt::Expr(int(1))],
            Some(done()),
        )],
        vec![Stmt::While(test(), done()), Stmt::Expr(int(1))],
        vec![Stmt::While(test(), vec![both()]), Stmt::Expr(int(1))],
        vec![for_(X, int(0), int(1), done()), Stmt::Expr(int(1))],
        vec![for_(X, int(0), int(1), vec![Stmt::Return(None), wrong()])],
        vec![Stmt::While(test(), vec![Stmt::While(test(), vec![both()])])],
        vec![for_(
            X,
            int(0),
            int(1),
            vec![for_(X, ident(X), int(2), vec![both()])],
        )],
    ]
}

/// A value in every place that takes one.
fn value_places(value: &Expr) -> Vec<Stmt> {
    let value = || value.clone();
    let mut statements = vec![
        let_(Y, value()),
        assign(X, value()),
        Stmt::Constrain(value()),
        storage_write(STORED, value()),
        mapping_write(X, value(), int(1)),
        Stmt::If(value(), vec![], None),
        Stmt::While(value(), vec![]),
        for_(Y, value(), int(1), vec![]),
        for_(Y, int(1), value(), vec![]),
        returning(value()),
        emit(X, vec![int(1), value()]),
        Stmt::Expr(value()),
    ];
    let values = vec![
        binary(value(), BinOp::Sub, int(1)),
        binary(int(1), BinOp::Neq, value()),
        access(value(), X),
        mapping_read(X, value()),
        literal(POINT, vec![(X, value())]),
        call(G, vec![value()]),
        call(5, vec![value(), int(1)]),
        call(5, vec![int(1), value()]),
        call(7, vec![value()]),
    ];
    statements.extend(values.into_iter().map(Stmt::Expr));
    statements
}

/// Every reading of a type name: a parameter's, a function's own, a call's.
fn types() -> Vec<Contract> {
    let mut contracts = Vec::new();
    for name in (0..=9).chain([POINT, LOST[0], 65_534]) {
        let used = |value: Expr| {
            vec![
                vec![Stmt::Expr(access(value.clone(), X))],
                vec![
                    let_(Y, value.clone()),
                    Stmt::Expr(binary(ident(Y), BinOp::Mul, ident(Y))),
                ],
                vec![Stmt::If(binary(value, BinOp::Lte, int(1)), vec![], None)],
            ]
        };
        let called = || function(G, Some(name), vec![]);
        for body in used(ident(P)) {
            let taking = function_of(&[(P, name)], function(F, None, body));
            contracts.push(declaring(vec![taking, called()]));
        }
        for body in used(call(G, vec![])) {
            let caller = function(F, Some(name), body);
            let mut contract = declaring(vec![caller, called()]);
            contract.structs.push(structure(name, vec![field(X, U64)]));
            contracts.push(contract);
        }
    }
    contracts
}

/// Names that are declared twice, and functions with the names of built-ins.
fn repeated_names() -> Vec<Contract> {
    let caller = |name, value: Expr| function(name, None, vec![let_(Y, value)]);
    let called = |returns| function(G, returns, vec![]);
    let mut contracts = Vec::new();
    for (first, last) in [(None, Some(U64)), (Some(U64), None), (Some(2), Some(POINT))] {
        let calling = || caller(F, call(G, vec![]));
        contracts.push(declaring(vec![calling(), called(first), called(last)]));
        contracts.push(declaring(vec![called(first), calling(), called(last)]));
        contracts.push(declaring(vec![called(first), called(last), calling()]));
    }
    for name in 0..10 {
        for count in 0..4 {
            let calling = caller(name, call(name, vec![int(1); count]));
            contracts.push(declaring(vec![function(name, Some(2), vec![]), calling]));
        }
    }
    for order in [[X, Y], [Y, X], [X, X], [Y, LOST[0]]] {
        let fields = order.map(|name| field(name, U64)).to_vec();
        let body = vec![Stmt::Expr(access(ident(P), X)), Stmt::Expr(storage_read(X))];
        let taking = function_of(&[(P, POINT), (P, POINT)], function(F, None, body));
        let mut contract = declaring(vec![taking]);
        contract.structs.push(structure(POINT, fields.clone()));
        contract.storage.extend(fields);
        contracts.push(contract);
    }
    contracts
}
