//! The Rust's IR to a program sheet.

use std::collections::HashSet;

use super::kind::*;
use super::writer::Writer;
use crate::ir::{
    BasicBlock, ContextKind, InstrNode, Instruction, IrFunction, IrProgram, IrType, Terminator,
    ValueId,
};
use crate::names::{self, ABSENT};

/// The program sheet of a program.
pub fn program(program: &IrProgram) -> Vec<u8> {
    let mut writer = Writer::default();
    writer.record(PROGRAM, |w| {
        for item in &program.functions {
            function(w, item);
        }
        // The Rust keeps the names in a map; the sheet gives them in order of
        // first appearance.
        let mut seen = HashSet::new();
        for item in &program.functions {
            if seen.insert(&item.name) {
                w.record(FUNCTION_NAME, |w| {
                    w.name(&item.name);
                    w.id(program.function_names[&item.name].0);
                });
            }
        }
    });
    writer.bytes
}

fn function(writer: &mut Writer, item: &IrFunction) {
    writer.record(IR_FUNCTION, |w| {
        w.id(item.id.0);
        w.name(&item.name);
        ir_type(w, &item.ret_ty);
        w.count(item.params.len());
        for (value, ty) in &item.params {
            w.id(value.0);
            ir_type(w, ty);
        }
        w.count(item.locals.len());
        for ty in &item.locals {
            ir_type(w, ty);
        }
        for item in &item.blocks {
            block(w, item);
        }
    });
}

fn block(writer: &mut Writer, item: &BasicBlock) {
    writer.record(IR_BLOCK, |w| {
        w.id(item.id.0);
        for node in &item.instrs {
            instruction(w, node);
        }
        if let Some(item) = &item.terminator {
            terminator(w, item);
        }
    });
}

/// The tag and the name of a type.
pub fn type_numbers(ty: &IrType) -> (u16, u16) {
    match ty {
        IrType::U64 => (0, 0),
        IrType::Bool => (1, 0),
        IrType::Field => (2, 0),
        IrType::Struct(name) => (3, names::number(name)),
        IrType::Void => (4, 0),
    }
}

fn ir_type(writer: &mut Writer, ty: &IrType) {
    let (tag, name) = type_numbers(ty);
    writer.u16(tag);
    writer.u16(name);
}

fn values(writer: &mut Writer, items: &[ValueId]) {
    for item in items {
        writer.id(item.0);
    }
}

/// The kind of the record of an instruction.
pub fn instruction_kind(item: &Instruction) -> u16 {
    match item {
        Instruction::Const { .. } => CONST,
        Instruction::Add { .. } => ADD,
        Instruction::Sub { .. } => SUB,
        Instruction::Mul { .. } => MUL,
        Instruction::Div { .. } => DIV,
        Instruction::IrEq { .. } => IR_EQ,
        Instruction::IrNe { .. } => IR_NE,
        Instruction::Lt { .. } => LT,
        Instruction::Le { .. } => LE,
        Instruction::Gt { .. } => GT,
        Instruction::Ge { .. } => GE,
        Instruction::Load { .. } => LOAD,
        Instruction::Store { .. } => STORE,
        Instruction::StateRead { .. } => STATE_READ,
        Instruction::StateWrite { .. } => STATE_WRITE,
        Instruction::ReadLocal { .. } => READ_LOCAL,
        Instruction::WriteLocal { .. } => WRITE_LOCAL,
        Instruction::Call { .. } => IR_CALL,
        Instruction::Assert { .. } => ASSERT,
        Instruction::Poseidon { .. } => POSEIDON,
        Instruction::Emit { .. } => IR_EMIT,
        Instruction::ContextRead { .. } => CONTEXT_READ,
    }
}

fn instruction(writer: &mut Writer, node: &InstrNode) {
    writer.record(instruction_kind(&node.instr), |w| {
        match node.result {
            Some(value) => w.id(value.0),
            None => w.u16(ABSENT),
        }
        operands(w, &node.instr);
    });
}

/// The fields after the result.
fn operands(w: &mut Writer, item: &Instruction) {
    match item {
        Instruction::Const { ty, value } => {
            ir_type(w, ty);
            w.bytes.extend(value.to_le_bytes());
        }
        Instruction::Add { ty, lhs, rhs }
        | Instruction::Sub { ty, lhs, rhs }
        | Instruction::Mul { ty, lhs, rhs }
        | Instruction::Div { ty, lhs, rhs }
        | Instruction::IrEq { ty, lhs, rhs }
        | Instruction::IrNe { ty, lhs, rhs }
        | Instruction::Lt { ty, lhs, rhs }
        | Instruction::Le { ty, lhs, rhs }
        | Instruction::Gt { ty, lhs, rhs }
        | Instruction::Ge { ty, lhs, rhs } => {
            ir_type(w, ty);
            values(w, &[*lhs, *rhs]);
        }
        Instruction::Call {
            function,
            args,
            ret_ty,
        } => {
            w.id(function.0);
            ir_type(w, ret_ty);
            values(w, args);
        }
        Instruction::Assert { condition } => values(w, &[*condition]),
        Instruction::Poseidon { lhs, rhs } => values(w, &[*lhs, *rhs]),
        Instruction::Emit { event_name, args } => {
            w.name(event_name);
            values(w, args);
        }
        Instruction::ContextRead { kind } => w.u16(context(kind)),
        other => memory_operands(w, other),
    }
}

/// The fields after the result of an instruction on memory, storage or locals.
fn memory_operands(w: &mut Writer, item: &Instruction) {
    match item {
        Instruction::Load { ty, base, offset } => {
            ir_type(w, ty);
            w.id(base.0);
            w.bytes.extend(offset.to_le_bytes());
        }
        Instruction::Store {
            base,
            offset,
            value,
        } => {
            w.id(base.0);
            w.bytes.extend(offset.to_le_bytes());
            w.id(value.0);
        }
        Instruction::StateRead { ty, slot } => {
            ir_type(w, ty);
            w.bytes.extend(slot.to_le_bytes());
        }
        Instruction::StateWrite { slot, value } => {
            w.bytes.extend(slot.to_le_bytes());
            w.id(value.0);
        }
        Instruction::ReadLocal { local, ty } => {
            w.id(local.0);
            ir_type(w, ty);
        }
        Instruction::WriteLocal { local, value } => {
            w.id(local.0);
            w.id(value.0);
        }
        other => unreachable!("written by `operands`: {other:?}"),
    }
}

fn context(kind: &ContextKind) -> u16 {
    match kind {
        ContextKind::Sender => 0,
        ContextKind::Nonce => 1,
        ContextKind::BlockHeight => 2,
    }
}

fn terminator(writer: &mut Writer, item: &Terminator) {
    match item {
        Terminator::Jump(target) => writer.record(JUMP, |w| w.id(target.0)),
        Terminator::Branch {
            condition,
            then_block,
            else_block,
        } => writer.record(BRANCH, |w| {
            w.id(condition.0);
            w.id(then_block.0);
            w.id(else_block.0);
        }),
        Terminator::Return(value) => writer.record(IR_RETURN, |w| match value {
            Some(value) => w.id(value.0),
            None => w.u16(ABSENT),
        }),
        Terminator::Unreachable => writer.record(UNREACHABLE, |_| ()),
    }
}
