//! The decided readings 9 to 16: what the walks meet first, and the answers.

use super::raw::*;
use crate::ast::{Contract, Stmt};
use crate::build::*;
use crate::names::ABSENT;
use crate::oracle::{lower_answer, Answer};
use crate::sheet::{contract_write, kind};

const X: u16 = 20;
const UNDECLARED: u16 = 99;

/// A body of some Lets and some Ifs, then one more statement.
fn after(lets: usize, ifs: usize, last: Stmt) -> String {
    let mut body = vec![let_(X, int(1)); lets];
    body.extend(vec![Stmt::If(int(1), vec![], None); ifs]);
    body.push(last);
    lowered_body(body)
}

#[test]
fn reading_9_when_a_function_is_full() {
    let unknown = || ident(UNDECLARED);
    // 85 Ifs make 256 blocks.
    assert_eq!(after(0, 85, Stmt::If(int(1), vec![], None)), "30 0");
    assert_eq!(after(0, 85, Stmt::If(unknown(), vec![], None)), "10 99");
    assert_eq!(after(0, 85, Stmt::While(unknown(), vec![])), "30 0");
    assert_eq!(after(256, 0, let_(X, unknown())), "10 99");
    assert_eq!(after(256, 0, let_(X, int(1))), "30 0");
    for bounds in [(unknown(), int(1)), (int(1), unknown())] {
        assert_eq!(after(256, 85, for_(X, bounds.0, bounds.1, vec![])), "10 99");
    }
    let looping = |body| for_(X, int(0), int(1), body);
    assert!(accepted(&after(254, 0, looping(vec![]))));
    assert_eq!(after(255, 0, looping(vec![])), "30 0");
    assert_eq!(after(0, 85, looping(vec![])), "30 0");
    // The two locals of a full function come before its three blocks, and
    // both before the body.
    assert_eq!(
        after(254, 85, looping(vec![assign(UNDECLARED, int(1))])),
        "30 0"
    );
    assert_eq!(
        after(254, 84, looping(vec![assign(UNDECLARED, int(1))])),
        "10 99"
    );
}

#[test]
fn reading_9_gives_the_position_of_the_function() {
    let full = function(12, None, vec![let_(X, int(1)); 257]);
    let empty = function(11, None, vec![]);
    let functions = vec![empty.clone(), empty, full];
    assert_eq!(lowered_contract(&contract(10, functions)), "30 2");
}

#[test]
fn reading_10_the_output_is_looked_at_last() {
    let unknown = contract_write::contract(&of_body(vec![returning(ident(UNDECLARED))]));
    assert_eq!(lower_answer(&unknown, 0).to_string(), "10 99");
    let empty = contract_sheet(&[]);
    assert_eq!(lower_answer(&empty, 5).to_string(), "31");
    assert_eq!(lower_answer(&empty, 6).to_string(), "OK 06 00 00 00 32 00");
    // 3,272 Emits of 10 bytes pass 32,768 bytes with the 50 around them, one
    // less stays below.
    let long = contract_write::contract(&of_body(vec![emit(X, vec![]); 3_272]));
    assert_eq!(lower_answer(&long, 40_000).to_string(), "31");
    let fitting = contract_write::contract(&of_body(vec![emit(X, vec![]); 3_271]));
    assert_eq!(lower_answer(&fitting, 32_760).number(), 0);
    assert_eq!(lower_answer(&fitting, 32_759).to_string(), "31");
}

/// A block of instructions and a terminator.
fn block(id: u16, instructions: &[&[u8]], terminator: &[u8]) -> Vec<u8> {
    record(
        kind::IR_BLOCK,
        &[&u(id), &instructions.concat(), terminator],
    )
}

fn ending(kind: u16, fields: &[u16]) -> Vec<u8> {
    record(kind, &[&all(fields)])
}

#[test]
fn reading_11_details_of_the_verifier() {
    let nothing = ending(kind::IR_RETURN, &[ABSENT]);
    let ends = |terminator: &[u8]| verified(&blocks_sheet(4, &[&block(7, &[], terminator)]));
    let holds = |instruction: &[u8]| verified(&instructions_sheet(&[instruction]));
    assert_eq!(ends(&ending(kind::IR_RETURN, &[9])), "41 11 9");
    assert_eq!(
        verified(&instructions_sheet(&[&constant(3), &constant(3)])),
        "42 11 3"
    );
    assert_eq!(ends(&ending(kind::JUMP, &[8])), "43 11 8");
    assert_eq!(ends(&[]), "44 11 7");
    let of_struct = record(
        kind::IR_FUNCTION,
        &[&all(&[0, 11, 3, 30, 0, 0]), &block(0, &[], &nothing)],
    );
    assert_eq!(
        verified(&record(kind::PROGRAM, &[&of_struct])),
        "45 11 3 30 65535 0"
    );
    let valued = block(0, &[&constant(5)], &ending(kind::IR_RETURN, &[5]));
    assert_eq!(verified(&blocks_sheet(4, &[&valued])), "45 11 4 0 0 0");
    let branch = ending(kind::BRANCH, &[5, 0, 0]);
    let branching = block(0, &[&constant(5)], &branch);
    assert_eq!(verified(&blocks_sheet(4, &[&branching])), "46 11 5 0 0");
    let compared = record(kind::IR_EQ, &[&all(&[1, 0, 0, 0, 0])]);
    let added = record(kind::ADD, &[&all(&[2, 0, 0, 0, 1])]);
    let sheet = instructions_sheet(&[&constant(0), &compared, &added]);
    assert_eq!(verified(&sheet), "47 11 0 0 1 0");
    assert_eq!(
        holds(&record(kind::READ_LOCAL, &[&all(&[0, 0, 0, 0])])),
        "48 11 0"
    );
    assert_eq!(
        holds(&record(kind::IR_CALL, &[&all(&[ABSENT, 5, 4, 0])])),
        "49 11 5"
    );
    assert_eq!(holds(&assertion(0, 0)), "50 11 78");
}

#[test]
fn reading_12_a_result_that_must_not_be() {
    let answer = |instructions: &[&[u8]]| verified(&instructions_sheet(instructions));
    let first = constant(0);
    // At one instruction 50 comes before 42.
    assert_eq!(answer(&[&first, &assertion(0, 0)]), "50 11 78");
    // The earlier instruction decides.
    assert_eq!(answer(&[&first, &first, &assertion(1, 0)]), "42 11 0");
    assert_eq!(answer(&[&assertion(1, 0), &first, &first]), "50 11 78");
    // Both come before anything that the instructions read.
    assert_eq!(
        answer(&[&assertion(ABSENT, 9), &assertion(1, 9)]),
        "50 11 78"
    );
    // Parameters come first.
    let fields = all(&[0, 11, 4, 0, 2, 6, 0, 0, 6, 0, 0, 0]);
    let body = block(0, &[&assertion(1, 9)], &ending(kind::UNREACHABLE, &[]));
    let function = record(kind::IR_FUNCTION, &[&fields, &body]);
    assert_eq!(verified(&record(kind::PROGRAM, &[&function])), "42 11 6");
    // An earlier function decides whatever a later one has.
    let empty = block(3, &[], &[]);
    let early = record(kind::IR_FUNCTION, &[&all(&[0, 11, 4, 0, 0, 0]), &empty]);
    let late = record(kind::IR_FUNCTION, &[&all(&[1, 12, 4, 0, 0, 0]), &body]);
    assert_eq!(
        verified(&record(kind::PROGRAM, &[&early, &late])),
        "44 11 3"
    );
    assert_eq!(
        verified(&record(kind::PROGRAM, &[&late, &early])),
        "50 12 78"
    );
}

#[test]
fn reading_12_gives_the_kind_of_each_instruction_without_result() {
    // The numbers of u16 after the result, all zero.
    let without = [
        (kind::STORE, 6),
        (kind::STATE_WRITE, 3),
        (kind::WRITE_LOCAL, 2),
        (kind::ASSERT, 1),
        (kind::IR_EMIT, 3),
    ];
    for (kind, numbers) in without {
        let instruction = record(kind, &[&vec![0; 2 + 2 * numbers]]);
        let sheet = instructions_sheet(&[&instruction]);
        assert_eq!(verified(&sheet), format!("50 11 {kind}"));
    }
}

#[test]
fn reading_13_results_that_are_absent_or_void() {
    let unnamed = constant(ABSENT);
    let twice = instructions_sheet(&[&unnamed, &unnamed]);
    assert_eq!(verified(&twice), "OK");
    // A value of type Void is a value: returning it from a void function is
    // a mismatch with "none".
    let void = record(kind::CONST, &[&all(&[0, 4, 0, 0, 0, 0, 0])]);
    let body = block(0, &[&void], &ending(kind::IR_RETURN, &[0]));
    assert_eq!(verified(&blocks_sheet(4, &[&body])), "45 11 4 0 4 0");
    let call = |result, tag| record(kind::IR_CALL, &[&all(&[result, 0, tag, 0])]);
    assert_eq!(verified(&instructions_sheet(&[&call(0, 4)])), "50 11 77");
    assert_eq!(verified(&instructions_sheet(&[&call(0, 3)])), "OK");
    assert_eq!(verified(&instructions_sheet(&[&call(ABSENT, 3)])), "OK");
}

#[test]
fn reading_14_what_the_verifier_does_not_mind() {
    let done = ending(kind::UNREACHABLE, &[]);
    let same = block(1, &[], &done);
    assert_eq!(verified(&blocks_sheet(0, &[&same, &same])), "OK");
    assert_eq!(verified(&blocks_sheet(0, &[])), "OK");
    assert_eq!(verified(&record(kind::PROGRAM, &[])), "OK");
    let function = record(kind::IR_FUNCTION, &[&all(&[4, 11, 4, 0, 0, 0])]);
    assert_eq!(
        verified(&record(kind::PROGRAM, &[&function, &function])),
        "OK"
    );
    let name = |fields: &[u16]| record(kind::FUNCTION_NAME, &[&all(fields)]);
    let stray = [&name(&[30, 31])[..], &name(&[30, 9])];
    assert_eq!(verified(&record(kind::PROGRAM, &stray)), "OK");
    assert_eq!(
        verified(&record(kind::PROGRAM, &[&name(&[30, ABSENT])])),
        "40 6"
    );
    assert_eq!(
        verified(&record(kind::PROGRAM, &[&name(&[ABSENT, 0])])),
        "40 6"
    );
}

#[test]
fn reading_15_orders_of_kinds_and_operators() {
    let expected = [61, 62, 63, 64, 65, 66, 67, 69, 68, 70];
    for (number, kind) in expected.into_iter().enumerate() {
        let operator = crate::sheet::contract_read::operator(number as u16);
        let body = vec![Stmt::Expr(binary(
            call(7, vec![]),
            operator,
            call(7, vec![]),
        ))];
        let sheet = contract_write::contract(&of_body(body));
        let Answer::Accepted(finished) = lower_answer(&sheet, 32_768) else {
            panic!("operator {number} is refused");
        };
        // Two context reads of 10 bytes start at byte 32.
        assert_eq!(finished[56..58], u(kind));
    }
}

#[test]
fn reading_16_the_printed_line() {
    assert_eq!(verified(&record(kind::PROGRAM, &[])), "OK");
    assert_eq!(lowered(&contract_sheet(&[])), "OK 06 00 00 00 32 00");
    assert_eq!(lowered(&[0; 32_769]), "1");
    let fields = vec![field(30, 1)];
    let body = vec![Stmt::Expr(access(ident(X), 31))];
    let params = [(X, 40)];
    let accessing = Contract {
        structs: vec![structure(40, fields)],
        ..contract(10, vec![function_of(&params, function(11, None, body))])
    };
    assert_eq!(lowered_contract(&accessing), "14 40 31");
}
