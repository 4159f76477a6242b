//! Contract sheets at each limit of document 01, just within and just past it.

use super::{nesting, overflow, Case};
use crate::ast::{BinOp, Contract, Expr, Function, Stmt};
use crate::build::*;
use crate::sheet::{contract_write, SHEET_LIMIT};

const CONTRACT: u16 = 10;
const F: u16 = 11;
const G: u16 = 12;
const X: u16 = 20;
const UNDECLARED: u16 = 99;
const U64: u16 = 1;

pub fn cases() -> Vec<Case> {
    let mut contracts = counts();
    contracts.extend(calls_and_emits());
    contracts.extend(full_functions());
    contracts.extend(full_functions_in_order());
    let mut cases: Vec<Case> = contracts.iter().map(case).collect();
    cases.extend(nesting::sheets().into_iter().map(Case::of));
    cases.extend(sizes());
    cases.extend(rooms());
    cases
}

fn case(contract: &Contract) -> Case {
    Case::of(contract_write::contract(contract))
}

/// A contract of one function without parameters.
fn single(body: Vec<Stmt>) -> Contract {
    contract(CONTRACT, vec![function(F, None, body)])
}

fn sender() -> Expr {
    call(7, vec![])
}

fn fields(count: usize) -> Vec<crate::ast::StorageField> {
    (0..count).map(|i| field(30 + i as u16, U64)).collect()
}

fn with_params(count: usize, body: Vec<Stmt>) -> Function {
    let params: Vec<(u16, u16)> = (0..count).map(|i| (30 + i as u16, U64)).collect();
    function_of(&params, function(F, None, body))
}

/// Declarations: functions, structs, storage fields, struct fields, parameters.
fn counts() -> Vec<Contract> {
    let empty = || contract(CONTRACT, vec![]);
    let functions = |count: usize| {
        let item = |i: usize| function(11 + i as u16, None, vec![]);
        contract(CONTRACT, (0..count).map(item).collect())
    };
    let structs = |count: usize, of: usize| Contract {
        structs: (0..count)
            .map(|i| structure(i as u16, fields(of)))
            .collect(),
        ..functions(65)
    };
    let storage = |count: usize| Contract {
        storage: fields(count),
        ..single(vec![storage_write(30 + 255, int(1))])
    };
    let mut contracts = Vec::new();
    contracts.extend([63, 64, 65, 66].map(functions));
    contracts.extend([63, 64, 65, 66].map(|count| structs(count, 1)));
    contracts.extend([63, 64, 65, 66].map(|of| structs(2, of)));
    contracts.extend([63, 64, 65].map(|of| structs(65, of)));
    contracts.extend([255, 256, 257, 258].map(storage));
    contracts.extend([15, 16, 17, 18, 1000].map(|count| Contract {
        functions: vec![with_params(count, vec![])],
        ..empty()
    }));
    contracts.extend([63, 64, 65].map(used_functions));
    contracts.extend([(64, 63), (64, 64), (64, 65), (63, 64), (65, 64)].map(used_structs));
    contracts.extend([255, 256, 257].map(used_storage));
    contracts.extend([15, 16, 17].map(used_params));
    contracts
}

/// Functions of which each calls the next, and two names the last.
fn used_functions(count: u16) -> Contract {
    let body = |i: u16| vec![Stmt::Expr(call(11 + (i + 1) % count, vec![]))];
    let mut functions: Vec<Function> = (0..count - 1)
        .map(|i| function(11 + i, Some(U64), body(i)))
        .collect();
    functions.push(function(11, Some(2), body(count - 1)));
    contract(CONTRACT, functions)
}

/// Structs with many fields, of which each struct's last two are read.
fn used_structs((count, of): (u16, u16)) -> Contract {
    let structs = (0..count).map(|i| structure(100 + i, fields(of.into())));
    let read = |i: u16, f: u16| Stmt::Expr(access(call(200 + i, vec![]), 30 + f));
    let body = (0..count.min(62)).flat_map(|i| [read(i, of - 2), read(i, of - 1)]);
    let mut functions = vec![function(F, None, body.collect())];
    functions.extend((0..count.min(62)).map(|i| function(200 + i, Some(100 + i), vec![])));
    Contract {
        structs: structs.collect(),
        ..contract(CONTRACT, functions)
    }
}

/// Storage fields, all read and written.
fn used_storage(count: usize) -> Contract {
    let used = |i: usize| storage_write(30 + i as u16, storage_read(30 + (count - 1 - i) as u16));
    Contract {
        storage: fields(count),
        ..single((0..count).map(used).collect())
    }
}

/// Parameters, all read and written.
fn used_params(count: usize) -> Contract {
    let used = |i: usize| assign(30 + i as u16, ident(30 + (count - 1 - i) as u16));
    contract(
        CONTRACT,
        vec![with_params(count, (0..count).map(used).collect())],
    )
}

/// Arguments of calls and events, lowered, ignored or skipped.
fn calls_and_emits() -> Vec<Contract> {
    let mut contracts = Vec::new();
    for count in [15, 16, 17, 18] {
        let arguments = || vec![sender(); count];
        let called = |name| vec![Stmt::Expr(call(name, arguments()))];
        let nested = Stmt::Expr(call(F, vec![call(F, arguments())]));
        contracts.extend([F, 5, 6, 7, UNDECLARED].map(|name| single(called(name))));
        contracts.push(single(vec![emit(X, arguments())]));
        contracts.push(single(vec![emit(X, vec![call(F, arguments())])]));
        contracts.push(single(vec![nested]));
        contracts.push(single([vec![Stmt::Return(None)], called(F)].concat()));
        contracts.push(single(vec![Stmt::Expr(call(
            8,
            vec![call(9, arguments())],
        ))]));
        let late = function(G, None, called(F));
        contracts.push(contract(CONTRACT, vec![with_params(count, vec![]), late]));
    }
    contracts
}

/// Statements of one kind, up to and past the blocks or locals of a function.
fn full_functions() -> Vec<Contract> {
    let mut contracts = Vec::new();
    let repeated = |item: &Stmt, count: usize| vec![item.clone(); count];
    let condition = || binary(int(1), BinOp::Eq, int(1));
    let looping = [
        Stmt::If(condition(), vec![], None),
        Stmt::If(condition(), vec![Stmt::Return(None)], Some(vec![])),
        Stmt::While(condition(), vec![]),
        for_(X, int(0), int(0), vec![]),
    ];
    for item in &looping {
        contracts.extend([84, 85, 86, 87].map(|count| single(repeated(item, count))));
    }
    let held = let_(X, int(1));
    for params in [0, 1, 16] {
        for total in [255, 256, 257, 258] {
            let lets = repeated(&held, total - params);
            contracts.push(contract(CONTRACT, vec![with_params(params, lets.clone())]));
            // A later function gives its own position.
            let later = function(G, None, lets);
            contracts.push(contract(CONTRACT, vec![with_params(params, vec![]), later]));
        }
    }
    let skipped = [vec![Stmt::Return(None)], repeated(&held, 300)].concat();
    contracts.push(single(skipped));
    contracts
}

/// What is met first where a function is full.
fn full_functions_in_order() -> Vec<Contract> {
    let held = let_(X, int(1));
    let test = Stmt::If(int(1), vec![], None);
    let unknown = || ident(UNDECLARED);
    let last = [
        let_(X, unknown()),
        Stmt::If(unknown(), vec![], None),
        Stmt::While(unknown(), vec![]),
        for_(X, unknown(), int(0), vec![]),
        for_(X, int(0), unknown(), vec![]),
        for_(X, int(0), int(0), vec![assign(UNDECLARED, int(1))]),
        Stmt::If(int(1), vec![assign(UNDECLARED, int(1))], None),
        Stmt::While(int(1), vec![let_(X, int(1)), assign(X, unknown())]),
    ];
    let mut contracts = Vec::new();
    for (locals, tests) in [
        (254, 0),
        (255, 0),
        (256, 0),
        (0, 84),
        (0, 85),
        (254, 85),
        (255, 84),
        (256, 85),
    ] {
        for item in &last {
            let mut body = vec![held.clone(); locals];
            body.extend(vec![test.clone(); tests]);
            body.push(item.clone());
            contracts.push(single(body));
        }
    }
    contracts
}

/// Sheets of about 32,768 bytes.
fn sizes() -> Vec<Case> {
    let mut cases = Vec::new();
    for length in [SHEET_LIMIT - 2, SHEET_LIMIT, SHEET_LIMIT + 2] {
        let filled = contract_write::contract(&filled(length));
        assert_eq!(filled.len(), length);
        let mut longer = filled.clone();
        longer.push(0);
        cases.extend([filled, longer].map(Case::of));
    }
    for length in [
        SHEET_LIMIT - 1,
        SHEET_LIMIT,
        SHEET_LIMIT + 1,
        2 * SHEET_LIMIT,
        70_000,
    ] {
        cases.extend([vec![0; length], vec![255; length]].map(Case::of));
    }
    cases
}

/// A contract whose sheet has the given even length: Returns take 6 bytes
/// each, and up to two with a context read 14.
fn filled(length: usize) -> Contract {
    // 8 bytes of the contract and 14 of the function.
    let mut rest = length - 22;
    let mut body = Vec::new();
    while !rest.is_multiple_of(6) {
        body.push(returning(sender()));
        rest -= 14;
    }
    body.extend(vec![Stmt::Return(None); rest / 6]);
    single(body)
}

/// Program sheets of about 32,768 bytes, and outputs of about their length.
fn rooms() -> Vec<Case> {
    let mut cases = Vec::new();
    let empty = contract_write::contract(&contract(CONTRACT, vec![]));
    for room in 0..=8 {
        let sheet = empty.clone();
        cases.push(Case { sheet, room });
    }
    for length in [
        SHEET_LIMIT - 10,
        SHEET_LIMIT - 2,
        SHEET_LIMIT,
        SHEET_LIMIT + 2,
    ] {
        let sheet = contract_write::contract(&emitting(length));
        for room in [0, length - 1, length, length + 1, SHEET_LIMIT, 40_000] {
            let sheet = sheet.clone();
            cases.push(Case { sheet, room });
        }
    }
    cases
}

/// A contract whose program sheet has the given even length.
fn emitting(length: usize) -> Contract {
    // The program, one function, its block, its Return and its name.
    let rest = length - (6 + 18 + 8 + 8 + 10);
    Contract {
        storage: vec![field(X, U64)],
        ..single(overflow::filler(rest))
    }
}
