//! P1 to P12 and the run-only limits, as document 01 states them.

use super::raw::*;
use crate::build::*;
use crate::ir::{BlockId, ContextKind, Instruction, IrFunction, IrProgram, IrType, Terminator};
use crate::oracle::{lower_answer, Answer};
use crate::proof_sheets::{rows, sheets};
use crate::sheet::{kind, parse, program_read, SHEET_LIMIT};

fn sheet(label: &str) -> Vec<u8> {
    let mut found = sheets().into_iter().filter(|(other, _)| *other == label);
    found.next().expect("a label of a row").1
}

fn finished(label: &str) -> Vec<u8> {
    match lower_answer(&sheet(label), SHEET_LIMIT) {
        Answer::Accepted(finished) => finished,
        refused => panic!("{label} is refused: {refused}"),
    }
}

fn program(label: &str) -> IrProgram {
    let finished = finished(label);
    program_read::program(&parse::parse(&finished, kind::PROGRAM))
}

fn only_function(label: &str) -> IrFunction {
    let mut functions = program(label).functions;
    assert_eq!(functions.len(), 1);
    functions.remove(0)
}

fn instructions(function: &IrFunction, block: usize) -> Vec<Instruction> {
    let nodes = function.blocks[block].instrs.iter();
    nodes.map(|node| node.instr.clone()).collect()
}

fn terminators(function: &IrFunction) -> Vec<Terminator> {
    let blocks = function.blocks.iter();
    blocks
        .map(|block| block.terminator.clone().unwrap())
        .collect()
}

/// The result ids of a function, in order.
fn results(function: &IrFunction) -> Vec<usize> {
    let nodes = function.blocks.iter().flat_map(|block| &block.instrs);
    nodes
        .filter_map(|node| node.result.map(|id| id.index()))
        .collect()
}

#[test]
fn p1_has_the_printed_bytes() {
    assert_eq!(sheet("P1"), [8, 0, 0, 0, 1, 0, 10, 0]);
    assert_eq!(lowered(&sheet("P1")), "OK 06 00 00 00 32 00");
}

#[test]
fn p2_has_the_printed_bytes() {
    let printed = "16 00 00 00 01 00 0A 00 0E 00 00 00 04 00 0B 00 FF FF 00 00 00 00";
    assert_eq!(crate::proof_sheets::hex(&sheet("P2")), printed);
    let answer = "OK 32 00 00 00 32 00 22 00 00 00 33 00 00 00 0B 00 04 00 00 00 00 00 00 00 \
                  10 00 00 00 35 00 00 00 08 00 00 00 5C 00 FF FF 0A 00 00 00 34 00 0B 00 00 00";
    assert_eq!(lowered(&sheet("P2")), answer);
}

#[test]
fn p3_is_a_const_and_a_return() {
    let function = only_function("P3");
    let seven = Instruction::Const {
        ty: IrType::U64,
        value: 7,
    };
    assert_eq!(instructions(&function, 0), [seven]);
    assert_eq!(results(&function), [0]);
    assert!(
        matches!(&terminators(&function)[..], [Terminator::Return(Some(id))] if id.index() == 0)
    );
}

#[test]
fn p4_has_a_merge_block_that_returns_nothing() {
    let function = only_function("P4");
    assert_eq!(function.blocks[3].id, BlockId(3));
    assert_eq!(terminators(&function)[3], Terminator::Return(None));
    assert_eq!(verified(&finished("P4")), "45 11 0 0 65535 0");
}

#[test]
fn p5_branches_on_a_number() {
    assert_eq!(verified(&finished("P5")), "46 11 0 0 0");
}

#[test]
fn p6_skips_the_second_return() {
    assert_eq!(instructions(&only_function("P6"), 0).len(), 1);
    assert_eq!(verified(&finished("P6")), "OK");
}

#[test]
fn p7_is_a_loop_of_four_blocks() {
    let function = only_function("P7");
    let ends = terminators(&function);
    assert_eq!(ends[0], Terminator::Jump(BlockId(1)));
    let Terminator::Branch {
        then_block,
        else_block,
        ..
    } = ends[1]
    else {
        panic!("the header branches");
    };
    assert_eq!([then_block, else_block], [BlockId(2), BlockId(3)]);
    assert_eq!(ends[2], Terminator::Jump(BlockId(1)));
    assert_eq!(ends[3], Terminator::Return(None));
}

#[test]
fn p8_names_storage_before_and_variable_after() {
    assert_eq!(lowered(&sheet("P8 StorageWrite")), "10 21");
    assert_eq!(lowered(&sheet("P8 Assign")), "10 20");
}

#[test]
fn p9_ignores_the_argument() {
    let sender = Instruction::ContextRead {
        kind: ContextKind::Sender,
    };
    assert_eq!(instructions(&only_function("P9"), 0), [sender]);
}

#[test]
fn p10_uses_the_last_slot() {
    let slots = instructions(&only_function("P10"), 0);
    assert!(matches!(slots[0], Instruction::StateRead { slot: 1, .. }));
    assert!(matches!(slots[1], Instruction::StateWrite { slot: 1, .. }));
}

#[test]
fn p11_calls_with_a_struct_type() {
    let program = program("P11");
    let called = &instructions(&program.functions[0], 0)[0];
    assert_eq!(called.result_type(), Some(IrType::Struct("void".into())));
    assert_eq!(program.functions[1].ret_ty, IrType::Void);
    assert!(finished("P11")
        .windows(8)
        .any(|w| w == [1, 0, 3, 0, 4, 0, 12, 0]));
}

#[test]
fn p12_has_eight_values_and_two_locals() {
    let function = only_function("P12");
    assert_eq!(results(&function), [0, 1, 2, 3, 4, 5, 6, 7]);
    assert_eq!(function.locals, [IrType::U64, IrType::U64]);
}

#[test]
fn rows_are_those_of_the_file() {
    let file = include_str!("../../rows.txt");
    assert_eq!(rows(), file.lines().collect::<Vec<_>>());
}

#[test]
fn run_only_limits() {
    let lets = |count| lowered_body(vec![let_(20, int(1)); count]);
    assert!(accepted(&lets(256)));
    assert_eq!(lets(257), "30 0");
    // Contract, function and statement take the first three levels.
    let nested = |levels: usize| {
        let step = |inner, _| call(7, vec![inner]);
        lowered_expr((0..levels).fold(call(7, vec![]), step))
    };
    assert!(accepted(&nested(36)));
    assert!(nested(37).starts_with("4 "));
    assert_eq!(lowered(&[0; 32_768]), "3 0");
    assert_eq!(lowered(&[0; 32_769]), "1");
    assert_eq!(verified(&[0; 32_768]), "40 0");
    assert_eq!(verified(&[0; 32_769]), "1");
}
