//! The decided readings 1 to 8: form and limits of sheets.

use super::raw::*;
use crate::ast::{BinOp, Stmt};
use crate::build::*;
use crate::names::ABSENT;
use crate::sheet::{contract_write, kind};

/// An Int record of one byte more than it needs.
fn long_int() -> Vec<u8> {
    record(kind::INT, &[&[7, 0, 0, 0, 0, 0, 0, 0, 0]])
}

fn sender() -> Vec<u8> {
    record(kind::CALL, &[&u(7)])
}

#[test]
fn reading_1_surplus_is_where_it_begins() {
    let sheet = body_sheet(&[&record(kind::EXPR, &[&long_int()])]);
    // 22 bytes up to the statement, 6 up to the Int, 14 of a full Int.
    assert_eq!(lowered(&sheet), "3 42");
    let storage = record(kind::STORAGE, &[&all(&[20, 1, 0])]);
    assert_eq!(lowered(&contract_sheet(&[&storage])), "3 18");
    let jump = record(kind::JUMP, &[&all(&[0, 0])]);
    let block = record(kind::IR_BLOCK, &[&u(0), &jump]);
    assert_eq!(verified(&blocks_sheet(4, &[&block])), "40 40");
}

#[test]
fn reading_2_a_list_that_ends_in_an_entry() {
    for surplus in [1, 2, 3] {
        let fields = [&all(&[20, 30, 1])[..], &vec![0; surplus]].concat();
        let structure = record(kind::STRUCT, &[&fields]);
        assert_eq!(lowered(&contract_sheet(&[&structure])), "3 8");
    }
    // Two parameters counted, one and a half there.
    let short = record(kind::FUNCTION, &[&all(&[11, ABSENT, 0, 2, 20, 1, 21])]);
    assert_eq!(lowered(&contract_sheet(&[&short])), "3 8");
    let emit = record(kind::IR_EMIT, &[&all(&[ABSENT, 20, 0]), &[0]]);
    assert_eq!(verified(&instructions_sheet(&[&emit])), "40 32");
    // One local counted, half a type there.
    let function = record(kind::IR_FUNCTION, &[&all(&[0, 11, 4, 0, 0, 1, 0])]);
    assert_eq!(verified(&record(kind::PROGRAM, &[&function])), "40 6");
}

#[test]
fn reading_3_a_missing_child() {
    let bare = record(kind::LET, &[&u(20)]);
    assert_eq!(lowered(&body_sheet(&[&bare])), "3 30");
    let next = record(kind::RETURN, &[]);
    assert_eq!(lowered(&body_sheet(&[&bare, &next])), "3 30");
    let junk = record(kind::LET, &[&u(20), &[1, 2, 3]]);
    assert_eq!(lowered(&body_sheet(&[&junk])), "3 30");
    let statement_inside = record(kind::LET, &[&u(20), &next]);
    assert_eq!(lowered(&body_sheet(&[&statement_inside])), "3 30");
    // The Binary has one child and ends; the expression after it is its
    // parent's, not its own.
    let half = record(kind::BINARY, &[&u(0), &sender()]);
    let pair = record(kind::CALL, &[&u(5), &half, &sender()]);
    let sheet = body_sheet(&[&record(kind::EXPR, &[&pair])]);
    assert_eq!(lowered(&sheet), "3 52");
}

#[test]
fn reading_4_children_and_sheets_that_go_on() {
    let mut sheet = body_sheet(&[&record(kind::RETURN, &[])]);
    sheet[22] = 7;
    assert_eq!(lowered(&sheet), "3 22");
    let mut program = instructions_sheet(&[]);
    program[24] = 0xFF;
    assert_eq!(verified(&program), "40 24");
    for more in 1..10 {
        let sheet = [contract_sheet(&[]), vec![0; more]].concat();
        assert_eq!(lowered(&sheet), "3 8");
        let program = [record(kind::PROGRAM, &[]), vec![0; more]].concat();
        assert_eq!(verified(&program), "40 6");
    }
}

#[test]
fn reading_5_children_come_in_order() {
    let storage = record(kind::STORAGE, &[&all(&[20, 1])]);
    let structure = record(kind::STRUCT, &[&u(20)]);
    let function = record(kind::FUNCTION, &[&all(&[11, ABSENT, 0, 0])]);
    let in_order = [&storage[..], &structure, &function];
    assert!(accepted(&lowered(&contract_sheet(&in_order))));
    assert_eq!(lowered(&contract_sheet(&[&structure, &storage])), "3 16");
    assert_eq!(lowered(&contract_sheet(&[&function, &structure])), "3 22");
    let ir_function = record(kind::IR_FUNCTION, &[&all(&[0, 11, 4, 0, 0, 0])]);
    let name = record(kind::FUNCTION_NAME, &[&all(&[11, 0])]);
    assert_eq!(
        verified(&record(kind::PROGRAM, &[&name, &ir_function])),
        "40 16"
    );
    let end = record(kind::UNREACHABLE, &[]);
    for after in [constant(0), end.clone()] {
        let block = record(kind::IR_BLOCK, &[&u(0), &end, &after]);
        assert_eq!(verified(&blocks_sheet(4, &[&block])), "40 38");
    }
}

#[test]
fn reading_6_only_a_return_type_is_absent() {
    let function = |fields: &[u16]| record(kind::FUNCTION, &[&all(fields)]);
    assert!(accepted(&lowered(&contract_sheet(&[&function(&[
        11, ABSENT, 0, 0
    ])]))));
    let wrong: [Vec<u8>; 6] = [
        function(&[ABSENT, 1, 0, 0]),
        function(&[11, 1, 0, 1, ABSENT, 1]),
        function(&[11, 1, 0, 1, 20, ABSENT]),
        record(kind::STORAGE, &[&all(&[20, ABSENT])]),
        record(kind::STRUCT, &[&u(ABSENT)]),
        record(kind::STRUCT, &[&all(&[20, 30, ABSENT])]),
    ];
    for child in wrong {
        assert_eq!(lowered(&contract_sheet(&[&child])), "3 8");
    }
    assert_eq!(lowered(&record(kind::CONTRACT, &[&u(ABSENT)])), "3 0");
    let emit = record(kind::IR_EMIT, &[&all(&[ABSENT, ABSENT])]);
    assert_eq!(verified(&instructions_sheet(&[&emit])), "40 32");
}

#[test]
fn reading_7_types_and_absent_ids() {
    let typed = |tag, name| record(kind::CONST, &[&all(&[0, tag, name, 0, 0, 0, 0])]);
    for (tag, name, valid) in [
        (0, 0, true),
        (4, 0, true),
        (3, 0, true),
        (3, 65_534, true),
        (0, 1, false),
        (4, 3, false),
        (3, ABSENT, false),
        (5, 0, false),
    ] {
        let answer = verified(&instructions_sheet(&[&typed(tag, name)]));
        assert_eq!(answer, if valid { "OK" } else { "40 32" });
    }
    assert_eq!(verified(&instructions_sheet(&[&constant(ABSENT)])), "OK");
    assert_eq!(
        verified(&instructions_sheet(&[&assertion(ABSENT, ABSENT)])),
        "40 32"
    );
    let call = record(kind::IR_CALL, &[&all(&[ABSENT, 0, 4, 0, ABSENT])]);
    assert_eq!(verified(&instructions_sheet(&[&call])), "40 32");
    assert_eq!(
        verified(&blocks_sheet(4, &[&record(kind::IR_BLOCK, &[&u(ABSENT)])])),
        "40 24"
    );
}

#[test]
fn reading_8_form_comes_before_limits_at_any_depth() {
    // Thousands of field accesses around a record that is none.
    let outside = |levels: usize| {
        let inner = [8, 0, 0, 0, 0, 0, 0, 0];
        let mut deep = inner.to_vec();
        for _ in 0..levels {
            deep = record(kind::FIELD_ACCESS, &[&u(20), &deep]);
        }
        body_sheet(&[&record(kind::EXPR, &[&deep])])
    };
    assert_eq!(lowered(&outside(4_000)), format!("3 {}", 28 + 8 * 4_000));
    let mut limited = outside(4_000);
    let place = limited.len() - 4;
    limited[place] = kind::IDENT as u8;
    // The statement has depth 3, the first access 4: the 38th access is too deep.
    assert_eq!(lowered(&limited), format!("4 {}", 28 + 8 * 37));
}

#[test]
fn reading_8_limits_hold_where_lowering_does_not_look() {
    let many = || Stmt::Expr(call(20, vec![int(1); 17]));
    assert_eq!(lowered_body(vec![Stmt::Return(None), many()]), "4 34");
    let ignored = call(7, vec![call(20, vec![int(1); 17])]);
    assert_eq!(lowered_expr(ignored), "4 36");
    // The lowest place over all reasons: the function with 17 parameters
    // comes before the call with 17 arguments that it holds.
    let params: Vec<(u16, u16)> = (0..17).map(|i| (30 + i, 1)).collect();
    let both = function_of(&params, function(11, None, vec![many()]));
    let sheet = contract_write::contract(&contract(10, vec![both]));
    assert_eq!(lowered(&sheet), "4 8");
}

#[test]
fn reading_8_depth_counts_every_record() {
    // Each If takes two levels, its own and that of its block.
    let nested = |levels: usize, last: Stmt| {
        let step = |inner, _| Stmt::If(binary(int(1), BinOp::Eq, int(1)), vec![inner], None);
        lowered_body(vec![(0..levels).fold(last, step)])
    };
    assert!(accepted(&nested(18, Stmt::Return(None))));
    assert!(accepted(&nested(18, returning(int(1)))));
    assert!(nested(18, returning(call(7, vec![int(1)]))).starts_with("4 "));
    assert!(nested(19, Stmt::Return(None)).starts_with("4 "));
    // Each literal takes two levels, its own and that of its field.
    let literals = |levels: usize| {
        let step = |inner, _| literal(20, vec![(21, inner)]);
        lowered_expr((0..levels).fold(call(7, vec![]), step))
    };
    assert_eq!(literals(18), "15");
    assert!(literals(19).starts_with("4 "));
}
