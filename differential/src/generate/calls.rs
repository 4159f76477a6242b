//! Calls: before and behind the definition, of functions of each type, with as
//! many arguments as parameters and with more or fewer.

use crate::ast::{Contract, Expr, Function, Stmt};
use crate::build::*;

const CONTRACT: u16 = 10;
const F: u16 = 11;
const G: u16 = 12;
const Y: u16 = 21;
const POINT: u16 = 30;
const LOST: u16 = 99;
const U64: u16 = 1;

/// The return types: none, the reserved names, a struct and an unknown name.
const RETURNS: [Option<u16>; 8] = [
    None,
    Some(0),
    Some(1),
    Some(2),
    Some(3),
    Some(4),
    Some(POINT),
    Some(LOST),
];

pub fn contracts() -> Vec<Contract> {
    let mut contracts = Vec::new();
    for returns in RETURNS {
        for params in [0, 1, 2, 16] {
            for arguments in [0, 1, 2, 3, 16] {
                contracts.extend(orders(returns, params, arguments));
            }
        }
    }
    contracts.extend(arguments_in_order());
    contracts
}

fn called(returns: Option<u16>, params: u16) -> Function {
    let params: Vec<(u16, u16)> = (0..params).map(|i| (40 + i, U64)).collect();
    function_of(&params, function(G, returns, vec![]))
}

fn declaring(functions: Vec<Function>) -> Contract {
    Contract {
        structs: vec![structure(POINT, vec![field(Y, U64)])],
        ..contract(CONTRACT, functions)
    }
}

/// Uses of a call: dropped, held and then read, a field of it, returned.
fn uses(value: Expr) -> Vec<Vec<Stmt>> {
    vec![
        vec![Stmt::Expr(value.clone())],
        vec![let_(Y, value.clone()), Stmt::Expr(ident(Y))],
        vec![Stmt::Expr(access(value.clone(), Y))],
        vec![returning(value)],
    ]
}

/// The caller before and behind what it calls, and a function that calls
/// itself.
fn orders(returns: Option<u16>, params: u16, arguments: usize) -> Vec<Contract> {
    let mut contracts = Vec::new();
    for body in uses(call(G, vec![int(1); arguments])) {
        let caller = function(F, returns, body.clone());
        let called = called(returns, params);
        let own = Function {
            body,
            ..called.clone()
        };
        contracts.push(declaring(vec![caller.clone(), called.clone()]));
        contracts.push(declaring(vec![called, caller]));
        contracts.push(declaring(vec![own]));
    }
    contracts
}

/// A mistake at each argument, after others that are calls themselves.
fn arguments_in_order() -> Vec<Contract> {
    let mut contracts = Vec::new();
    for name in [G, LOST, 5, 6, 7, 8, 9] {
        for count in [1, 2, 3, 16] {
            for wrong in 0..count {
                let mut arguments = vec![call(G, vec![call(G, vec![]), int(1)]); count];
                arguments[wrong] = ident(LOST);
                let body = vec![Stmt::Expr(call(name, arguments))];
                let caller = function(F, None, body);
                contracts.push(declaring(vec![caller, called(Some(U64), 2)]));
            }
        }
    }
    contracts
}
