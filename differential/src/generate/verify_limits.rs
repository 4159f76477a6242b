//! Program sheets with as much of one thing as fits, and with each mistake at
//! each place.

use super::Case;
use crate::ir::{
    BasicBlock, BlockId, FunctionId, InstrNode, Instruction, IrFunction, IrProgram, IrType,
    LocalId, Terminator, ValueId,
};
use crate::names::text;
use crate::sheet::{program_write, SHEET_LIMIT};

pub fn cases() -> Vec<Case> {
    let mut programs = many_params();
    programs.extend(many_locals());
    programs.extend(many_blocks());
    programs.extend(many_functions());
    programs.extend(two_results());
    programs.extend(in_later_function());
    programs.extend(returned_types());
    programs.extend(operand_types());
    let sheets = programs.iter().map(program_write::program);
    let mut cases: Vec<Case> = sheets.map(Case::of).collect();
    cases.extend(sizes());
    cases
}

fn program(functions: Vec<IrFunction>) -> IrProgram {
    let names = functions.iter().map(|f| (f.name.clone(), f.id));
    IrProgram {
        function_names: names.collect(),
        functions,
    }
}

fn function(id: u32, blocks: Vec<BasicBlock>) -> IrFunction {
    IrFunction {
        id: FunctionId(id),
        name: text(11 + id as u16),
        params: Vec::new(),
        ret_ty: IrType::Void,
        blocks,
        locals: Vec::new(),
    }
}

fn block(id: u32, instrs: Vec<InstrNode>, terminator: Option<Terminator>) -> BasicBlock {
    BasicBlock {
        id: BlockId(id),
        instrs,
        terminator,
    }
}

fn node(result: Option<u32>, instr: Instruction) -> InstrNode {
    InstrNode {
        result: result.map(ValueId),
        instr,
    }
}

fn constant(result: u32) -> InstrNode {
    let ty = IrType::U64;
    node(Some(result), Instruction::Const { ty, value: 7 })
}

fn assert_of(result: Option<u32>, condition: u32) -> InstrNode {
    let condition = ValueId(condition);
    node(result, Instruction::Assert { condition })
}

fn returning() -> Option<Terminator> {
    Some(Terminator::Return(None))
}

/// Thousands of parameters, also with the last one repeating the first.
fn many_params() -> Vec<IrProgram> {
    let mut programs = Vec::new();
    for last in [0, 5, 4_999] {
        let ids = (0..4_999).chain([last]);
        let params = ids.map(|id| (ValueId(id), IrType::U64)).collect();
        let used = vec![assert_of(None, 4_998), assert_of(None, 4_999)];
        programs.push(program(vec![IrFunction {
            params,
            ..function(0, vec![block(0, used, returning())])
        }]));
    }
    programs
}

/// Thousands of locals, also with a read past the last.
fn many_locals() -> Vec<IrProgram> {
    let mut programs = Vec::new();
    for (count, read) in [
        (0, 0),
        (1, 0),
        (1, 1),
        (256, 255),
        (256, 256),
        (8_000, 7_999),
        (8_000, 8_000),
    ] {
        let reading = Instruction::ReadLocal {
            local: LocalId(read),
            ty: IrType::Bool,
        };
        programs.push(program(vec![IrFunction {
            locals: vec![IrType::U64; count],
            ..function(0, vec![block(0, vec![node(Some(0), reading)], returning())])
        }]));
    }
    programs
}

/// Thousands of blocks, with jumps to the last and past it.
fn many_blocks() -> Vec<IrProgram> {
    let mut programs = Vec::new();
    for (first, target) in [(0, 1_999), (0, 2_000), (63_535, 65_534), (63_535, 0)] {
        let jump = Some(Terminator::Jump(BlockId(target)));
        let blocks = (0..2_000).map(|i| block(first + i, vec![], jump.clone()));
        programs.push(program(vec![function(0, blocks.collect())]));
    }
    programs
}

/// Many functions, with calls of the last and past it.
fn many_functions() -> Vec<IrProgram> {
    let mut programs = Vec::new();
    for called in [599, 600] {
        let call = Instruction::Call {
            function: FunctionId(called),
            args: vec![],
            ret_ty: IrType::Void,
        };
        let mut functions: Vec<IrFunction> = (1..600).map(|id| function(id, vec![])).collect();
        let body = vec![block(0, vec![node(None, call)], returning())];
        functions.insert(0, function(0, body));
        programs.push(program(functions));
    }
    programs
}

/// Pairs of a value defined twice and a result that must not be, in both
/// orders, in one block and in two.
fn two_results() -> Vec<IrProgram> {
    let mut programs = Vec::new();
    let lists: [Vec<InstrNode>; 6] = [
        vec![constant(0), assert_of(Some(0), 9)],
        vec![constant(0), constant(0), assert_of(Some(1), 9)],
        vec![constant(0), assert_of(Some(1), 9), constant(0)],
        vec![assert_of(None, 9), constant(1), constant(1)],
        vec![assert_of(None, 9), constant(1), assert_of(Some(5), 5)],
        vec![constant(5), constant(6)],
    ];
    for list in &lists {
        for at in 0..=list.len() {
            for params in [vec![], vec![5], vec![5, 5]] {
                let (early, late) = list.split_at(at);
                let blocks = vec![
                    block(0, early.to_vec(), None),
                    block(0, late.to_vec(), returning()),
                ];
                let params = params.into_iter().map(|id| (ValueId(id), IrType::Bool));
                programs.push(program(vec![IrFunction {
                    params: params.collect(),
                    ..function(0, blocks)
                }]));
            }
        }
    }
    programs
}

/// A mistake in one function, none or another in the one before it.
fn in_later_function() -> Vec<IrProgram> {
    let blocks = [
        vec![],
        vec![block(0, vec![], returning())],
        vec![block(0, vec![], None)],
        vec![block(0, vec![assert_of(Some(0), 0)], returning())],
        vec![block(0, vec![assert_of(None, 3)], returning())],
        vec![block(0, vec![constant(1), constant(1)], returning())],
    ];
    let mut programs = Vec::new();
    for first in &blocks {
        for second in &blocks {
            let functions = vec![function(0, first.clone()), function(1, second.clone())];
            programs.push(program(functions));
        }
    }
    programs
}

/// Every type, with structs of several names.
fn types() -> Vec<IrType> {
    let structs = [0, 4, 30].map(|name| IrType::Struct(text(name)));
    let others = [IrType::U64, IrType::Bool, IrType::Field, IrType::Void];
    [structs.to_vec(), others.to_vec()].concat()
}

/// A function of two parameters of the given types.
fn taking(left: &IrType, right: &IrType, block: BasicBlock) -> IrFunction {
    IrFunction {
        params: vec![(ValueId(0), left.clone()), (ValueId(1), right.clone())],
        ..function(0, vec![block])
    }
}

/// A value of each type returned from functions of each type, and branched on.
fn returned_types() -> Vec<IrProgram> {
    let mut programs = Vec::new();
    for expected in types() {
        for got in types() {
            let returning = Terminator::Return(Some(ValueId(0)));
            programs.push(program(vec![IrFunction {
                ret_ty: expected.clone(),
                ..taking(&got, &got, block(0, vec![], Some(returning)))
            }]));
        }
        let branch = Terminator::Branch {
            condition: ValueId(0),
            then_block: BlockId(0),
            else_block: BlockId(0),
        };
        let branching = taking(&expected, &expected, block(0, vec![], Some(branch)));
        programs.push(program(vec![branching]));
    }
    programs
}

/// Operations of each own type on operands of each two types.
fn operand_types() -> Vec<IrProgram> {
    let (lhs, rhs) = (ValueId(0), ValueId(1));
    let mut programs = Vec::new();
    for own in types() {
        for left in types() {
            for right in types() {
                let ty = own.clone();
                let arithmetic = Instruction::Sub { ty, lhs, rhs };
                let ty = own.clone();
                let comparison = Instruction::Gt { ty, lhs, rhs };
                for instr in [arithmetic, comparison] {
                    let instrs = vec![node(Some(2), instr)];
                    let body = block(0, instrs, returning());
                    programs.push(program(vec![taking(&left, &right, body)]));
                }
            }
        }
    }
    programs
}

/// Sheets of about 32,768 bytes: a Const takes 20 bytes, an Emit of n
/// arguments 10 + 2n.
fn sizes() -> Vec<Case> {
    let mut cases = Vec::new();
    for length in [SHEET_LIMIT - 2, SHEET_LIMIT, SHEET_LIMIT + 2] {
        // The program, one function, its block, its Return and its name.
        let rest = length - (6 + 18 + 8 + 8 + 10);
        let constants = rest / 20 - 2;
        let emit = Instruction::Emit {
            event_name: text(20),
            args: vec![ValueId(0); (rest - constants * 20 - 10) / 2],
        };
        let mut instrs: Vec<InstrNode> = (0..constants as u32).map(constant).collect();
        instrs.push(node(None, emit));
        let full = program(vec![function(0, vec![block(0, instrs, returning())])]);
        let sheet = program_write::program(&full);
        assert_eq!(sheet.len(), length);
        let longer = [&sheet[..], &[0]].concat();
        cases.extend([sheet, longer].map(Case::of));
    }
    for length in [SHEET_LIMIT - 1, SHEET_LIMIT, SHEET_LIMIT + 1, 70_000] {
        cases.extend([vec![0; length], vec![255; length]].map(Case::of));
    }
    cases
}
