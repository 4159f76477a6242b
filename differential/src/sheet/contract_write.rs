//! The Rust's AST to a contract sheet.

use super::kind::*;
use super::writer::Writer;
use crate::ast::{BinOp, Contract, Expr, Function, Stmt, Struct};

/// The contract sheet of a contract.
pub fn contract(contract: &Contract) -> Vec<u8> {
    let mut writer = Writer::default();
    writer.record(CONTRACT, |w| {
        w.name(&contract.name);
        for field in &contract.storage {
            w.record(STORAGE, |w| {
                w.name(&field.name);
                w.name(&field.ty);
            });
        }
        for item in &contract.structs {
            structure(w, item);
        }
        for item in &contract.functions {
            function(w, item);
        }
    });
    writer.bytes
}

fn structure(writer: &mut Writer, item: &Struct) {
    writer.record(STRUCT, |w| {
        w.name(&item.name);
        for field in &item.fields {
            w.name(&field.name);
            w.name(&field.ty);
        }
    });
}

fn function(writer: &mut Writer, item: &Function) {
    writer.record(FUNCTION, |w| {
        w.name(&item.name);
        w.name_or_absent(item.return_type.as_deref());
        w.u16(u16::from(item.is_pub));
        w.count(item.params.len());
        for param in &item.params {
            w.name(&param.name);
            w.name(&param.ty);
        }
        statements(w, &item.body);
    });
}

fn statements(writer: &mut Writer, items: &[Stmt]) {
    for item in items {
        statement(writer, item);
    }
}

fn block(writer: &mut Writer, items: &[Stmt]) {
    writer.record(BLOCK, |w| statements(w, items));
}

/// A record of a name and expressions.
fn named(writer: &mut Writer, kind: u16, name: &str, items: &[&Expr]) {
    writer.record(kind, |w| {
        w.name(name);
        for item in items {
            expression(w, item);
        }
    });
}

fn statement(writer: &mut Writer, item: &Stmt) {
    match item {
        Stmt::Let(name, value) => named(writer, LET, name, &[value]),
        Stmt::Constrain(value) => writer.record(CONSTRAIN, |w| expression(w, value)),
        Stmt::Assign(name, value) => named(writer, ASSIGN, name, &[value]),
        Stmt::StorageWrite(name, value) => named(writer, STORAGE_WRITE, name, &[value]),
        Stmt::MappingWrite(name, key, value) => named(writer, MAPPING_WRITE, name, &[key, value]),
        Stmt::If(condition, then, otherwise) => writer.record(IF, |w| {
            expression(w, condition);
            block(w, then);
            if let Some(otherwise) = otherwise {
                block(w, otherwise);
            }
        }),
        Stmt::While(condition, body) => writer.record(WHILE, |w| {
            expression(w, condition);
            block(w, body);
        }),
        Stmt::For {
            var,
            start,
            end,
            body,
        } => writer.record(FOR, |w| {
            w.name(var);
            expression(w, start);
            expression(w, end);
            block(w, body);
        }),
        Stmt::Return(value) => writer.record(RETURN, |w| {
            value.iter().for_each(|value| expression(w, value));
        }),
        Stmt::Emit(name, values) => named(writer, EMIT, name, &values.iter().collect::<Vec<_>>()),
        Stmt::Expr(value) => writer.record(EXPR, |w| expression(w, value)),
    }
}

fn expression(writer: &mut Writer, item: &Expr) {
    match item {
        Expr::Int(value) => writer.record(INT, |w| w.bytes.extend(value.to_le_bytes())),
        Expr::Ident(name) => named(writer, IDENT, name, &[]),
        Expr::StorageRead(name) => named(writer, STORAGE_READ, name, &[]),
        Expr::MappingRead(name, key) => named(writer, MAPPING_READ, name, &[key]),
        Expr::FieldAccess(base, field) => named(writer, FIELD_ACCESS, field, &[base]),
        Expr::StructLiteral(name, fields) => writer.record(STRUCT_LITERAL, |w| {
            w.name(name);
            for (field, value) in fields {
                named(w, LITERAL_FIELD, field, &[value]);
            }
        }),
        Expr::Binary(left, operation, right) => writer.record(BINARY, |w| {
            w.u16(operator(operation));
            expression(w, left);
            expression(w, right);
        }),
        Expr::Call(name, values) => named(writer, CALL, name, &values.iter().collect::<Vec<_>>()),
    }
}

/// The number of an operator, in the order of `BinOp`.
fn operator(operation: &BinOp) -> u16 {
    match operation {
        BinOp::Add => 0,
        BinOp::Sub => 1,
        BinOp::Mul => 2,
        BinOp::Div => 3,
        BinOp::Eq => 4,
        BinOp::Neq => 5,
        BinOp::Lt => 6,
        BinOp::Gt => 7,
        BinOp::Lte => 8,
        BinOp::Gte => 9,
    }
}
