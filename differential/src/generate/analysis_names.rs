//! Small contracts for what the body check knows of names: types by name,
//! declarations of one name, built-ins, and how long a name is known.

use super::analysis::{around, declaring, in_blocks, of_main, statements_of, unknown};
use crate::ast::{Contract, Expr, Stmt};
use crate::build::*;
use crate::sheet::contract_read::operator;

const F: u16 = 11;
const G: u16 = 12;
const X: u16 = 20;
const Y: u16 = 21;
const B: u16 = 22;
const P: u16 = 23;
const POINT: u16 = 30;
const HOLDER: u16 = 40;
const LOST: u16 = 99;
const U64: u16 = 1;
const BOOL: u16 = 2;

pub fn contracts() -> Vec<Contract> {
    let mut contracts = types();
    contracts.extend(returns());
    contracts.extend(scopes().into_iter().map(around));
    contracts.extend(unknown_values().into_iter().map(around));
    contracts.extend(operators().into_iter().map(around));
    contracts.extend(builtins());
    contracts.extend(repeated_functions());
    contracts.extend(repeated_structs());
    contracts.extend(repeated_params());
    contracts.extend(structs_of_reserved_names());
    contracts
}

/// The type names of the parameters 50 and up: reserved ones, a struct, and
/// others.
const TYPE_NAMES: [u16; 12] = [0, 1, 2, 3, 4, 5, 7, 9, POINT, LOST, X, 65_534];

/// A parameter of each type name.
fn params() -> Vec<(u16, u16)> {
    let names = TYPE_NAMES.iter().enumerate();
    names.map(|(i, &ty)| (50 + i as u16, ty)).collect()
}

/// A value of each type: the parameters, one of no type, one of unknown type.
fn typed_values() -> Vec<Expr> {
    let params = params().into_iter().map(|(name, _)| ident(name));
    let unknown = access(ident(50), X);
    params.chain([call(F, vec![]), unknown]).collect()
}

/// A value of every type wherever a type is asked for.
fn types() -> Vec<Contract> {
    let mut contracts = Vec::new();
    for value in typed_values() {
        for (position, &name) in TYPE_NAMES.iter().enumerate() {
            let held = 50 + position as u16;
            let bodies = [
                vec![assign(held, value.clone())],
                vec![let_(Y, ident(held)), assign(Y, value.clone())],
                vec![let_(Y, value.clone()), assign(Y, ident(held))],
                vec![returning(value.clone())],
                vec![Stmt::Expr(binary(ident(held), operator(6), value.clone()))],
                vec![Stmt::Expr(binary(value.clone(), operator(0), ident(held)))],
                vec![Stmt::Expr(call(G, vec![value.clone()]))],
                vec![Stmt::Expr(literal(HOLDER, vec![(X, value.clone())]))],
            ];
            contracts.extend(bodies.map(|body| of_type(name, body)));
        }
    }
    contracts
}

/// A body in a function that gives the type, beside a function that takes it
/// and a struct that holds it.
fn of_type(name: u16, body: Vec<Stmt>) -> Contract {
    let taking = function_of(&[(X, name)], function(G, Some(name), vec![]));
    let mut contract = declaring(vec![
        function(F, None, vec![]),
        function_of(&params(), function(13, Some(name), body)),
        taking,
    ]);
    contract
        .structs
        .push(structure(HOLDER, vec![field(X, name)]));
    contract
}

/// A Return with and without a value, of each return type.
fn returns() -> Vec<Contract> {
    let names = [0, 1, 2, 3, 4, 5, POINT, LOST, 65_534].map(Some);
    let mut contracts = Vec::new();
    for name in names.into_iter().chain([None]) {
        let own = call(13, vec![ident(X), ident(B), ident(P), ident(24)]);
        let values = [int(1), ident(B), ident(P), call(F, vec![]), unknown(), own];
        let mut bodies: Vec<Vec<Stmt>> = values.map(|value| vec![returning(value)]).to_vec();
        bodies.push(vec![Stmt::Return(None)]);
        bodies.push(vec![]);
        contracts.extend(bodies.into_iter().map(|body| of_main(name, body)));
    }
    contracts
}

/// What is known after a block: the names and types that it leaves.
fn scopes() -> Vec<Vec<Stmt>> {
    let reads = |name| {
        [
            Stmt::Expr(ident(name)),
            assign(name, int(1)),
            assign(name, ident(B)),
            assign(X, ident(name)),
            Stmt::Expr(access(ident(name), X)),
        ]
    };
    let mut bodies = Vec::new();
    for (name, value) in [(Y, int(1)), (Y, ident(B)), (X, ident(B)), (P, int(1))] {
        let held = || let_(name, value.clone());
        for read in reads(name) {
            bodies.push(vec![held(), read.clone()]);
            bodies.push(vec![read.clone(), held()]);
            let arms = Stmt::If(ident(B), vec![held()], Some(vec![read.clone()]));
            bodies.push(vec![arms]);
            for block in in_blocks(vec![held(), read.clone()]) {
                bodies.push(vec![block.clone()]);
                bodies.push(vec![block.clone(), read.clone()]);
                bodies.extend(in_blocks(vec![block]).map(|outer| vec![outer, read.clone()]));
            }
        }
    }
    bodies.extend(loops());
    bodies
}

/// What a For's variable hides, in its bounds, in its body and after it.
fn loops() -> Vec<Vec<Stmt>> {
    let uses = |name| {
        [
            Stmt::Expr(ident(name)),
            assign(name, int(1)),
            assign(name, ident(B)),
            Stmt::Expr(access(ident(name), X)),
            let_(name, ident(B)),
        ]
    };
    let mut bodies = Vec::new();
    for name in [Y, X, B, P] {
        for inner in uses(name) {
            for after in uses(name) {
                let looping = || for_(name, int(0), int(1), vec![inner.clone()]);
                let twice = for_(name, int(0), int(1), vec![looping(), after.clone()]);
                bodies.push(vec![looping(), after.clone()]);
                bodies.push(vec![twice, after.clone()]);
                bodies.push(vec![let_(Y, ident(P)), looping(), after.clone()]);
            }
        }
        bodies.push(vec![for_(name, ident(name), int(1), vec![])]);
        bodies.push(vec![for_(name, int(1), ident(name), vec![])]);
    }
    bodies
}

/// A name of unknown type in every place that asks for a type.
fn unknown_values() -> Vec<Vec<Stmt>> {
    let uses = [
        ident(Y),
        access(ident(Y), LOST),
        binary(ident(Y), operator(1), ident(B)),
        binary(ident(B), operator(1), ident(Y)),
        call(G, vec![ident(Y), ident(Y)]),
        call(5, vec![ident(Y), ident(Y)]),
        literal(POINT, vec![(X, ident(Y)), (Y, ident(Y))]),
        literal(POINT, vec![(LOST, ident(Y))]),
        mapping_read(Y, ident(Y)),
    ];
    let mut bodies = Vec::new();
    for value in uses {
        for statement in statements_of(&value) {
            bodies.push(vec![let_(Y, unknown()), statement]);
        }
    }
    for value in [int(1), ident(B), ident(P), call(F, vec![])] {
        bodies.push(vec![let_(Y, unknown()), assign(Y, value)]);
    }
    bodies
}

/// Every operator between values of every type: its type is that of the left.
fn operators() -> Vec<Vec<Stmt>> {
    let values = || [int(1), ident(B), ident(P), call(F, vec![]), unknown()];
    let mut bodies = Vec::new();
    for number in 0..10 {
        for left in values() {
            for right in values() {
                let value = binary(left.clone(), operator(number), right);
                bodies.push(vec![let_(Y, value.clone()), assign(Y, ident(B))]);
                bodies.push(vec![returning(value)]);
            }
        }
    }
    bodies
}

/// Calls of every reserved name, declared or not, with every count of
/// arguments up to four and one of another type among them.
fn builtins() -> Vec<Contract> {
    let mut contracts = Vec::new();
    for name in 0..10 {
        let mut calls = Vec::new();
        for count in 0..5 {
            calls.push(call(name, vec![int(1); count]));
            calls.push(call(name, vec![ident(B); count]));
            for wrong in 0..count {
                let mut arguments = vec![int(1); count];
                arguments[wrong] = ident(B);
                calls.push(call(name, arguments));
            }
        }
        for value in calls {
            let contract = around(vec![let_(Y, value), assign(Y, ident(B))]);
            let mut declared = contract.clone();
            let params = [(X, BOOL), (Y, BOOL), (P, BOOL), (B, BOOL)];
            let own = function_of(&params, function(name, Some(BOOL), vec![]));
            declared.functions.push(own);
            contracts.extend([contract, declared]);
        }
    }
    contracts
}

/// The parameters and the return type of a function.
type Signature = (&'static [(u16, u16)], Option<u16>);

/// Functions of one name, before, around and behind a call of it; the bodies of
/// all are looked at.
fn repeated_functions() -> Vec<Contract> {
    let signatures: [Signature; 4] = [
        (&[], Some(U64)),
        (&[], Some(BOOL)),
        (&[(X, U64)], None),
        (&[(X, BOOL)], Some(U64)),
    ];
    let bodies = [vec![], vec![returning(int(1))], vec![returning(ident(X))]];
    let mut contracts = Vec::new();
    for (params, returns) in signatures {
        for (others, gives) in signatures {
            for body in &bodies {
                let first = || function_of(params, function(G, returns, body.clone()));
                let last = || function_of(others, function(G, gives, vec![]));
                for arguments in [vec![], vec![int(1)]] {
                    let using = returning(call(G, arguments));
                    let caller = || function(F, Some(U64), vec![using.clone()]);
                    contracts.push(declaring(vec![caller(), first(), last()]));
                    contracts.push(declaring(vec![first(), caller(), last()]));
                    contracts.push(declaring(vec![first(), last(), caller()]));
                }
            }
        }
    }
    contracts
}

/// Structs of one name, and fields of one name in a struct.
fn repeated_structs() -> Vec<Contract> {
    let orders = [[X, Y], [Y, X], [X, X], [Y, LOST]];
    let uses = [
        access(ident(P), X),
        access(ident(P), Y),
        literal(POINT, vec![(X, int(1))]),
        literal(POINT, vec![(X, ident(B))]),
        literal(POINT, vec![(Y, int(1))]),
    ];
    let mut contracts = Vec::new();
    for [first, last] in orders {
        for value in &uses {
            let body = vec![let_(Y, value.clone()), assign(Y, int(1))];
            let mut contract = around(body);
            let fields = vec![field(first, U64), field(last, BOOL)];
            contract.structs.push(structure(POINT, fields));
            contracts.push(contract.clone());
            contract.structs.reverse();
            contracts.push(contract);
        }
    }
    contracts
}

/// Parameters of one name, in the function and in a call of it.
fn repeated_params() -> Vec<Contract> {
    let mut contracts = Vec::new();
    for types in [[U64, BOOL], [BOOL, U64], [POINT, U64], [U64, LOST]] {
        let params = types.map(|ty| (X, ty));
        for value in [ident(X), access(ident(X), X), int(1)] {
            let own = function_of(&params, function(F, Some(U64), vec![returning(value)]));
            let arguments = vec![int(1), binary(int(1), operator(4), int(1))];
            let caller = function(G, None, vec![Stmt::Expr(call(F, arguments))]);
            contracts.push(declaring(vec![own, caller]));
        }
    }
    contracts
}

/// A declared struct of a type's name: a literal of it is a struct value, and
/// differs from what the name stands for as a type.
fn structs_of_reserved_names() -> Vec<Contract> {
    let mut contracts = Vec::new();
    for name in 0..10 {
        let value = || literal(name, vec![(X, int(1))]);
        let bodies = [
            vec![let_(Y, value()), assign(Y, value())],
            vec![let_(Y, value()), assign(Y, int(1))],
            vec![let_(Y, value()), assign(Y, ident(P))],
            vec![Stmt::Expr(access(value(), X))],
            vec![Stmt::Expr(access(ident(P), X))],
            vec![returning(value())],
            vec![Stmt::Expr(call(F, vec![value()]))],
        ];
        for body in bodies {
            let own = function_of(&[(P, name)], function(F, Some(name), body));
            let mut contract = declaring(vec![own]);
            contracts.push(contract.clone());
            contract.structs.push(structure(name, vec![field(X, U64)]));
            contracts.push(contract);
        }
    }
    contracts
}
