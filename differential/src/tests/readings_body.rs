//! The decided readings of the body check, each with the printed answers.

use super::raw::*;
use crate::analysis::analyze;
use crate::ast::{BinOp, Contract, Expr, Function, Stmt};
use crate::build::*;
use crate::generate::analysis::{around, mistakes};
use crate::sheet::{contract_write, kind};

const F: u16 = 11;
const G: u16 = 12;
const X: u16 = 20;
const Y: u16 = 21;
const B: u16 = 22;
const P: u16 = 23;
const Q: u16 = 24;
const POINT: u16 = 30;
const LOST: u16 = 99;
const U64: u16 = 1;
const BOOL: u16 = 2;

/// The answer to a body that starts at byte 54, in a function of a number X, a
/// truth value B, a struct value P of two fields X and Y of these types, and a
/// value Q of an undeclared struct. F takes and gives nothing, G takes X and B
/// and gives a number.
fn giving(returns: Option<u16>, body: Vec<Stmt>) -> String {
    let params = [(X, U64), (B, BOOL), (P, POINT), (Q, LOST)];
    let called = function_of(&params[..2], function(G, Some(U64), vec![]));
    let functions = vec![
        function_of(&params, function(13, returns, body)),
        function(F, None, vec![]),
        called,
    ];
    analyzed(&Contract {
        structs: vec![structure(POINT, vec![field(X, U64), field(Y, BOOL)])],
        ..contract(10, functions)
    })
}

/// The answer to such a body in a function that gives a number.
fn body(body: Vec<Stmt>) -> String {
    giving(Some(U64), body)
}

fn one(statement: Stmt) -> String {
    body(vec![statement])
}

/// The answer to an expression that starts at byte 60.
fn value(value: Expr) -> String {
    one(Stmt::Expr(value))
}

fn lost() -> Expr {
    ident(LOST)
}

fn compare(left: Expr, right: Expr) -> Expr {
    binary(left, BinOp::Lt, right)
}

#[test]
fn the_thirteen_texts_are_numbered_from_top_to_bottom() {
    let lines = [
        "51 94 1",
        "51 94 2",
        "51 94 3",
        "51 100 4",
        "51 100 5",
        "51 100 6",
        "51 100 7",
        "51 100 8",
        "51 100 9",
        "51 100 10",
        "51 100 11",
        "51 100 12",
        "51 100 13",
    ];
    for (statement, line) in mistakes().into_iter().zip(lines) {
        assert_eq!(analyzed(&around(vec![statement])), line);
    }
}

#[test]
fn form_and_limits_come_before_the_body_check() {
    let wrong = contract_write::contract(&of_body(vec![Stmt::Expr(lost())]));
    assert_eq!(analyze(&wrong).to_string(), "51 28 4");
    let surplus = [&wrong[..], &[0]].concat();
    assert_eq!(analyze(&surplus).to_string(), "3 36");
    let long = [&wrong[..], &[0; 32_768]].concat();
    assert_eq!(analyze(&long).to_string(), "1");
    let many = Stmt::Expr(call(F, vec![int(1); 17]));
    assert_eq!(analyzed_body(vec![Stmt::Expr(lost()), many]), "4 42");
}

#[test]
fn the_record_kinds_of_later_requests_are_malformed() {
    let storage = record(8, &[&all(&[20, 1, 0, 0])]);
    assert_eq!(analyze(&contract_sheet(&[&storage])).to_string(), "3 8");
    assert_eq!(analyze(&record(7, &[&u(10)])).to_string(), "3 0");
}

#[test]
fn an_assign_of_an_unknown_name_comes_before_its_value() {
    assert_eq!(one(assign(LOST, lost())), "51 54 2");
    assert_eq!(one(assign(LOST, int(1))), "51 54 2");
    assert_eq!(one(assign(X, lost())), "51 62 4");
    assert_eq!(one(assign(X, ident(B))), "51 54 1");
}

#[test]
fn the_arguments_come_before_the_call() {
    assert_eq!(value(call(LOST, vec![lost()])), "51 68 4");
    assert_eq!(value(call(G, vec![lost()])), "51 68 4");
    assert_eq!(value(call(G, vec![int(1), lost()])), "51 82 4");
    assert_eq!(value(call(G, vec![ident(B), lost()])), "51 76 4");
}

#[test]
fn ten_eleven_and_twelve_have_the_place_of_the_call() {
    let inside = |called| value(mapping_read(X, called));
    assert_eq!(inside(call(G, vec![int(1)])), "51 68 10");
    assert_eq!(inside(call(G, vec![int(1), int(2)])), "51 68 11");
    assert_eq!(inside(call(LOST, vec![])), "51 68 12");
    // The count comes before the types.
    assert_eq!(inside(call(G, vec![ident(B)])), "51 68 10");
}

#[test]
fn left_and_right_come_before_the_binary() {
    let sum = |left, right| binary(left, BinOp::Add, right);
    assert_eq!(value(sum(lost(), call(LOST, vec![]))), "51 68 4");
    assert_eq!(value(sum(ident(B), lost())), "51 76 4");
    assert_eq!(value(sum(ident(B), int(1))), "51 60 13");
    assert_eq!(value(sum(sum(ident(B), int(1)), lost())), "51 68 13");
}

#[test]
fn a_returned_value_comes_before_the_return() {
    assert_eq!(one(returning(lost())), "51 60 4");
    assert_eq!(one(returning(ident(B))), "51 54 3");
}

#[test]
fn seven_and_eight_have_the_place_of_the_literal() {
    let point = |fields| value(literal(POINT, fields));
    assert_eq!(point(vec![(X, ident(B))]), "51 60 7");
    assert_eq!(point(vec![(LOST, int(1))]), "51 60 8");
    assert_eq!(point(vec![(X, int(1)), (Y, int(1))]), "51 60 7");
    let inner = literal(POINT, vec![(X, ident(B))]);
    assert_eq!(value(mapping_read(X, inner)), "51 68 7");
}

#[test]
fn an_error_inside_a_field_keeps_its_place_and_comes_first() {
    let point = |fields| value(literal(POINT, fields));
    assert_eq!(point(vec![(X, lost())]), "51 76 4");
    assert_eq!(point(vec![(LOST, lost())]), "51 76 4");
    // The rule of a field comes before the next field.
    assert_eq!(point(vec![(X, ident(B)), (Y, lost())]), "51 60 7");
    assert_eq!(point(vec![(LOST, ident(B)), (Y, lost())]), "51 60 8");
}

#[test]
fn a_literal_of_an_undeclared_struct_hides_its_fields() {
    assert_eq!(value(literal(LOST, vec![(X, lost())])), "51 60 9");
}

#[test]
fn fields_may_be_missing_or_repeated() {
    assert_eq!(value(literal(POINT, vec![])), "OK");
    assert_eq!(value(literal(POINT, vec![(Y, ident(B))])), "OK");
    let twice = vec![(X, int(1)), (X, int(2))];
    assert_eq!(value(literal(POINT, twice)), "OK");
    let second = vec![(X, int(1)), (X, ident(B))];
    assert_eq!(value(literal(POINT, second)), "51 60 7");
}

#[test]
fn nothing_is_skipped_after_a_return() {
    let wrong = || Stmt::Expr(lost());
    let done = || Stmt::Return(None);
    assert_eq!(giving(None, vec![done(), wrong()]), "51 66 4");
    let both = Stmt::If(ident(B), vec![done()], Some(vec![done()]));
    assert_eq!(giving(None, vec![both, wrong()]), "51 98 4");
    let inside = Stmt::While(ident(B), vec![done(), wrong()]);
    assert_eq!(giving(None, vec![inside]), "51 86 4");
}

/// A function with a parameter P, whose body starts at byte 26.
fn of_param(ty: u16, returns: Option<u16>, body: Vec<Stmt>) -> String {
    let own = function_of(&[(P, ty)], function(F, returns, body));
    analyzed(&contract(10, vec![own]))
}

#[test]
fn one_two_and_three_are_types_and_all_other_names_structs() {
    for name in (0..10).chain([POINT, 65_534]) {
        let accessed = of_param(name, None, vec![Stmt::Expr(access(ident(P), X))]);
        let line = match name {
            1..=3 => "51 32 6",
            _ => "OK",
        };
        assert_eq!(accessed, line, "name {name}");
        let returned = || vec![returning(ident(P))];
        assert_eq!(of_param(name, Some(name), returned()), "OK");
        for other in [0, 1, 2, 3, 4, 31] {
            if other != name {
                assert_eq!(of_param(name, Some(other), returned()), "51 26 3");
            }
        }
    }
}

#[test]
fn an_absent_return_type_is_void() {
    let nothing = || vec![Stmt::Return(None)];
    assert_eq!(giving(None, nothing()), "OK");
    for name in [0, 1, 2, 3, 4, POINT] {
        assert_eq!(giving(Some(name), nothing()), "51 54 3", "name {name}");
    }
    assert_eq!(giving(None, vec![returning(int(1))]), "51 54 3");
    assert_eq!(of_param(4, None, vec![returning(ident(P))]), "51 26 3");
    // A call that gives nothing has the type that is asked for.
    assert_eq!(giving(None, vec![returning(call(F, vec![]))]), "OK");
    assert_eq!(value(access(call(F, vec![]), X)), "51 60 6");
}

#[test]
fn a_comparison_has_the_type_of_its_left_operand() {
    assert_eq!(one(assign(X, compare(ident(X), int(1)))), "OK");
    assert_eq!(one(assign(B, compare(ident(X), int(1)))), "51 54 1");
    assert_eq!(one(assign(B, compare(ident(B), ident(B)))), "OK");
    assert_eq!(one(assign(P, compare(ident(P), ident(P)))), "OK");
    let condition = Stmt::If(int(1), vec![], None);
    assert_eq!(one(condition), "OK");
}

#[test]
fn lets_in_arms_and_while_bodies_stay_known() {
    let held = || vec![let_(Y, int(1))];
    let read = || Stmt::Expr(ident(Y));
    assert_eq!(body(vec![Stmt::If(ident(B), held(), None), read()]), "OK");
    let otherwise = Stmt::If(ident(B), vec![], Some(held()));
    assert_eq!(body(vec![otherwise, read()]), "OK");
    assert_eq!(body(vec![Stmt::While(ident(B), held()), read()]), "OK");
    let arms = Stmt::If(ident(B), held(), Some(vec![read()]));
    assert_eq!(one(arms), "OK");
    // So does the type of a Let that hides a parameter.
    let hiding = Stmt::If(ident(B), vec![let_(X, ident(B))], None);
    assert_eq!(body(vec![hiding, assign(X, int(1))]), "51 90 1");
}

#[test]
fn the_variable_and_the_lets_of_a_for_do_not() {
    let looping = |body| for_(Y, int(0), int(1), body);
    let read = |name| Stmt::Expr(ident(name));
    assert_eq!(one(looping(vec![assign(Y, int(1))])), "OK");
    assert_eq!(body(vec![looping(vec![]), read(Y)]), "51 102 4");
    let held = looping(vec![let_(G, int(1))]);
    assert_eq!(body(vec![held, read(G)]), "51 124 4");
    let inner = Stmt::While(ident(B), vec![let_(G, int(1))]);
    assert_eq!(body(vec![looping(vec![inner, read(G)])]), "OK");
    // The variable is not known in the bounds.
    assert_eq!(one(for_(Y, ident(Y), int(1), vec![])), "51 62 4");
    assert_eq!(one(for_(Y, int(1), ident(Y), vec![])), "51 76 4");
}

#[test]
fn what_a_for_hides_has_its_type_again_afterwards() {
    let read = || Stmt::Expr(access(ident(P), X));
    let looping = |body| for_(P, int(0), int(1), body);
    assert_eq!(body(vec![looping(vec![]), read()]), "OK");
    assert_eq!(one(looping(vec![read()])), "51 102 6");
    let hiding = looping(vec![let_(P, ident(B)), let_(X, ident(B))]);
    assert_eq!(body(vec![hiding, read(), assign(X, int(1))]), "OK");
}

/// A contract of two functions of one name, then of a caller.
fn called(functions: [Function; 2], value: Expr) -> String {
    let caller = function(F, Some(U64), vec![returning(value)]);
    let [first, last] = functions;
    analyzed(&contract(10, vec![first, last, caller]))
}

#[test]
fn the_last_function_of_a_name_serves() {
    let of = |params: &[(u16, u16)], returns| function_of(params, function(G, returns, vec![]));
    let plain = || of(&[], Some(U64));
    let taking = || of(&[(X, U64)], Some(BOOL));
    assert_eq!(called([taking(), plain()], call(G, vec![])), "OK");
    assert_eq!(called([plain(), taking()], call(G, vec![])), "51 60 10");
    assert_eq!(
        called([plain(), taking()], call(G, vec![int(1)])),
        "51 54 3"
    );
    // The bodies of all are looked at, each by its own return type.
    let wrong = |returns| function(G, returns, vec![returning(int(1))]);
    assert_eq!(called([wrong(None), plain()], int(1)), "51 22 3");
    assert_eq!(called([wrong(Some(U64)), plain()], int(1)), "OK");
}

#[test]
fn the_last_struct_and_the_last_field_of_a_name_serve() {
    let answer = |structs: [&[(u16, u16)]; 2], value| {
        let fields = |entries: &[(u16, u16)]| {
            let entries = entries.iter();
            entries.map(|&(name, ty)| field(name, ty)).collect()
        };
        let own = function_of(
            &[(P, POINT)],
            function(F, Some(U64), vec![returning(value)]),
        );
        analyzed(&Contract {
            structs: structs
                .map(|entries| structure(POINT, fields(entries)))
                .to_vec(),
            ..contract(10, vec![own])
        })
    };
    let read = || access(ident(P), X);
    assert_eq!(answer([&[], &[(X, U64)]], read()), "OK");
    assert_eq!(answer([&[(X, U64)], &[]], read()), "51 52 5");
    assert_eq!(answer([&[], &[(X, BOOL), (X, U64)]], read()), "OK");
    assert_eq!(answer([&[], &[(X, U64), (X, BOOL)]], read()), "51 50 3");
}

#[test]
fn the_last_parameter_of_a_name_serves() {
    let answer = |types: [u16; 2], arguments| {
        let params = types.map(|ty| (X, ty));
        let own = function_of(&params, function(F, Some(U64), vec![returning(ident(X))]));
        let calling = vec![Stmt::Expr(call(F, arguments))];
        let caller = function_of(&[(B, BOOL)], function(G, None, calling));
        analyzed(&contract(10, vec![own, caller]))
    };
    assert_eq!(answer([BOOL, U64], vec![ident(B), int(1)]), "OK");
    assert_eq!(answer([U64, BOOL], vec![int(1), ident(B)]), "51 30 3");
    // A call takes both.
    assert_eq!(answer([BOOL, U64], vec![int(1), int(1)]), "51 68 11");
}

#[test]
fn built_ins_take_numbers_and_replace_declared_functions() {
    let counts = [(5, 2), (6, 3), (7, 0), (8, 0), (9, 0)];
    for (name, count) in counts {
        let declared = |value| {
            let params = [(X, BOOL)];
            let own = function_of(&params, function(name, Some(BOOL), vec![]));
            called([own.clone(), own], value)
        };
        for given in 0..5 {
            let line = match given == count {
                true => "OK",
                false => "51 64 10",
            };
            assert_eq!(declared(call(name, vec![int(1); given])), line);
            let plain = one(returning(call(name, vec![int(1); given])));
            assert_eq!(plain == "OK", given == count);
        }
        if count > 0 {
            assert_eq!(value(call(name, vec![ident(B); count])), "51 60 11");
        }
    }
}

#[test]
fn no_error_for_what_is_not_looked_at() {
    assert_eq!(one(storage_write(LOST, ident(B))), "OK");
    assert_eq!(value(binary(storage_read(LOST), BinOp::Add, int(1))), "OK");
    assert_eq!(one(mapping_write(LOST, ident(B), ident(P))), "OK");
    assert_eq!(value(mapping_read(LOST, ident(P))), "OK");
    assert_eq!(one(emit(LOST, vec![ident(P)])), "OK");
    assert_eq!(body(vec![]), "OK");
    assert_eq!(one(Stmt::Constrain(int(1))), "OK");
    assert_eq!(one(for_(Y, ident(B), ident(P), vec![])), "OK");
    assert_eq!(one(let_(Y, call(F, vec![]))), "OK");
}

#[test]
fn a_field_of_an_undeclared_struct_is_unknown() {
    let field = || access(ident(Q), X);
    assert_eq!(value(field()), "OK");
    assert_eq!(value(access(field(), LOST)), "OK");
    assert_eq!(value(binary(ident(Q), BinOp::Add, int(1))), "51 60 13");
}

#[test]
fn the_unknown_type_is_no_mismatch() {
    let unknown = || access(ident(Q), X);
    let held = |statement| body(vec![let_(Y, unknown()), statement]);
    assert_eq!(held(assign(X, ident(Y))), "OK");
    assert_eq!(held(assign(Y, ident(B))), "OK");
    assert_eq!(held(returning(ident(Y))), "OK");
    let values = [
        access(ident(Y), X),
        literal(POINT, vec![(X, ident(Y)), (Y, ident(Y))]),
        call(G, vec![ident(Y), ident(Y)]),
        call(5, vec![ident(Y), ident(Y)]),
        binary(ident(Y), BinOp::Add, ident(B)),
        binary(ident(B), BinOp::Add, ident(Y)),
    ];
    for value in values {
        assert_eq!(held(Stmt::Expr(value)), "OK");
    }
    // The Let takes 24 bytes. What else is wrong shows all the same.
    let wrong = |value| held(Stmt::Expr(value));
    assert_eq!(wrong(literal(POINT, vec![(LOST, ident(Y))])), "51 84 8");
    assert_eq!(wrong(call(G, vec![ident(Y)])), "51 84 10");
    // A Binary is of unknown type if its left operand is.
    let left = binary(ident(Y), BinOp::Add, ident(B));
    assert_eq!(held(assign(X, left)), "OK");
    let right = binary(ident(B), BinOp::Add, ident(Y));
    assert_eq!(held(assign(X, right)), "51 78 1");
}

#[test]
fn the_functions_are_looked_at_in_order() {
    let wrong = |name, value| function(name, None, vec![Stmt::Expr(value)]);
    let functions = vec![wrong(F, call(LOST, vec![])), wrong(G, lost())];
    assert_eq!(analyzed(&contract(10, functions)), "51 28 12");
    let functions = vec![wrong(F, call(G, vec![])), wrong(G, lost())];
    assert_eq!(analyzed(&contract(10, functions)), "51 56 4");
}

#[test]
fn a_literal_of_a_struct_named_like_a_type_is_a_struct_value() {
    let own = function(F, Some(U64), vec![returning(literal(U64, vec![]))]);
    let answer = analyzed(&Contract {
        structs: vec![structure(U64, vec![])],
        ..contract(10, vec![own])
    });
    assert_eq!(answer, "51 30 3");
}

#[test]
fn neither_full_functions_nor_long_programs_are_refused() {
    assert_eq!(analyzed_body(vec![let_(X, int(1)); 257]), "OK");
    assert_eq!(analyzed_body(vec![emit(X, vec![]); 3_272]), "OK");
    assert_eq!(analyzed_expr(call(7, vec![])), "OK");
    assert_eq!(analyze(&contract_sheet(&[])).to_string(), "OK");
    let empty = body_sheet(&[&record(kind::RETURN, &[])]);
    assert_eq!(analyze(&empty).to_string(), "OK");
}
