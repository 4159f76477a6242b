//! A checked program sheet to the Rust's IR.

use super::fields::Fields;
use super::kind::*;
use super::parse::{Node, Tree};
use crate::ir::{
    BasicBlock, ContextKind, InstrNode, Instruction, IrFunction, IrProgram, Terminator,
};

/// The program of a well-formed program sheet.
pub fn program(tree: &Tree) -> IrProgram {
    let mut program = IrProgram::default();
    for &child in &tree.nodes[0].children {
        let node = &tree.nodes[child];
        if node.kind == IR_FUNCTION {
            program.functions.push(function(tree, node));
        } else {
            let mut fields = Fields::of(tree, node);
            let name = fields.name();
            program.function_names.insert(name, fields.function());
        }
    }
    program
}

fn function(tree: &Tree, node: &Node) -> IrFunction {
    let mut fields = Fields::of(tree, node);
    let id = fields.function();
    let name = fields.name();
    let ret_ty = fields.ir_type();
    let mut params = Vec::new();
    for _ in 0..fields.u16() {
        params.push((fields.value(), fields.ir_type()));
    }
    let mut locals = Vec::new();
    for _ in 0..fields.u16() {
        locals.push(fields.ir_type());
    }
    let children = node.children.iter();
    let blocks = children
        .map(|&child| block(tree, &tree.nodes[child]))
        .collect();
    IrFunction {
        id,
        name,
        params,
        ret_ty,
        blocks,
        locals,
    }
}

fn block(tree: &Tree, node: &Node) -> BasicBlock {
    let mut block = BasicBlock {
        id: Fields::of(tree, node).block(),
        instrs: Vec::new(),
        terminator: None,
    };
    for &child in &node.children {
        let entry = &tree.nodes[child];
        let mut fields = Fields::of(tree, entry);
        if entry.kind < JUMP {
            let result = fields.value_or_absent();
            let instr = instruction(entry.kind, &mut fields);
            block.instrs.push(InstrNode { result, instr });
        } else {
            block.terminator = Some(terminator(entry.kind, &mut fields));
        }
    }
    block
}

fn instruction(kind: u16, fields: &mut Fields) -> Instruction {
    match kind {
        CONST => Instruction::Const {
            ty: fields.ir_type(),
            value: fields.u64(),
        },
        ADD..=GE => binary(kind, fields),
        LOAD..=WRITE_LOCAL => memory(kind, fields),
        IR_CALL => {
            let function = fields.function();
            let ret_ty = fields.ir_type();
            Instruction::Call {
                function,
                args: fields.values(),
                ret_ty,
            }
        }
        ASSERT => Instruction::Assert {
            condition: fields.value(),
        },
        POSEIDON => Instruction::Poseidon {
            lhs: fields.value(),
            rhs: fields.value(),
        },
        IR_EMIT => Instruction::Emit {
            event_name: fields.name(),
            args: fields.values(),
        },
        _ => Instruction::ContextRead {
            kind: context(fields.u16()),
        },
    }
}

/// The ten instructions of a type and two operands.
fn binary(kind: u16, fields: &mut Fields) -> Instruction {
    let ty = fields.ir_type();
    let lhs = fields.value();
    let rhs = fields.value();
    match kind {
        ADD => Instruction::Add { ty, lhs, rhs },
        SUB => Instruction::Sub { ty, lhs, rhs },
        MUL => Instruction::Mul { ty, lhs, rhs },
        DIV => Instruction::Div { ty, lhs, rhs },
        IR_EQ => Instruction::IrEq { ty, lhs, rhs },
        IR_NE => Instruction::IrNe { ty, lhs, rhs },
        LT => Instruction::Lt { ty, lhs, rhs },
        LE => Instruction::Le { ty, lhs, rhs },
        GT => Instruction::Gt { ty, lhs, rhs },
        _ => Instruction::Ge { ty, lhs, rhs },
    }
}

/// The six instructions on memory, storage and locals.
fn memory(kind: u16, fields: &mut Fields) -> Instruction {
    match kind {
        LOAD => Instruction::Load {
            ty: fields.ir_type(),
            base: fields.value(),
            offset: fields.i64(),
        },
        STORE => Instruction::Store {
            base: fields.value(),
            offset: fields.i64(),
            value: fields.value(),
        },
        STATE_READ => Instruction::StateRead {
            ty: fields.ir_type(),
            slot: fields.i32(),
        },
        STATE_WRITE => Instruction::StateWrite {
            slot: fields.i32(),
            value: fields.value(),
        },
        READ_LOCAL => Instruction::ReadLocal {
            local: fields.local(),
            ty: fields.ir_type(),
        },
        _ => Instruction::WriteLocal {
            local: fields.local(),
            value: fields.value(),
        },
    }
}

fn context(number: u16) -> ContextKind {
    match number {
        0 => ContextKind::Sender,
        1 => ContextKind::Nonce,
        _ => ContextKind::BlockHeight,
    }
}

fn terminator(kind: u16, fields: &mut Fields) -> Terminator {
    match kind {
        JUMP => Terminator::Jump(fields.block()),
        BRANCH => Terminator::Branch {
            condition: fields.value(),
            then_block: fields.block(),
            else_block: fields.block(),
        },
        IR_RETURN => Terminator::Return(fields.value_or_absent()),
        _ => Terminator::Unreachable,
    }
}
