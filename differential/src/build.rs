//! Short constructors of AST parts, by name number.

use crate::ast::{BinOp, Contract, Expr, Function, Param, Stmt, StorageField, Struct};
use crate::names::text;

pub fn contract(name: u16, functions: Vec<Function>) -> Contract {
    Contract {
        name: text(name),
        storage: Vec::new(),
        structs: Vec::new(),
        functions,
    }
}

/// A storage field, or a field of a struct.
pub fn field(name: u16, type_name: u16) -> StorageField {
    StorageField {
        name: text(name),
        ty: text(type_name),
    }
}

pub fn structure(name: u16, fields: Vec<StorageField>) -> Struct {
    Struct {
        name: text(name),
        fields,
    }
}

pub fn function(name: u16, return_type: Option<u16>, body: Vec<Stmt>) -> Function {
    Function {
        name: text(name),
        params: Vec::new(),
        return_type: return_type.map(text),
        body,
        is_pub: false,
    }
}

/// A function with parameters of the given names and type names.
pub fn function_of(params: &[(u16, u16)], function: Function) -> Function {
    let param = |&(name, type_name): &(u16, u16)| Param {
        name: text(name),
        ty: text(type_name),
    };
    Function {
        params: params.iter().map(param).collect(),
        ..function
    }
}

pub fn int(value: u64) -> Expr {
    Expr::Int(value)
}

pub fn ident(name: u16) -> Expr {
    Expr::Ident(text(name))
}

pub fn storage_read(name: u16) -> Expr {
    Expr::StorageRead(text(name))
}

pub fn mapping_read(name: u16, key: Expr) -> Expr {
    Expr::MappingRead(text(name), Box::new(key))
}

pub fn access(base: Expr, field: u16) -> Expr {
    Expr::FieldAccess(Box::new(base), text(field))
}

pub fn literal(name: u16, fields: Vec<(u16, Expr)>) -> Expr {
    let fields = fields.into_iter();
    Expr::StructLiteral(
        text(name),
        fields.map(|(field, value)| (text(field), value)).collect(),
    )
}

pub fn binary(left: Expr, operator: BinOp, right: Expr) -> Expr {
    Expr::Binary(Box::new(left), operator, Box::new(right))
}

pub fn call(name: u16, arguments: Vec<Expr>) -> Expr {
    Expr::Call(text(name), arguments)
}

pub fn let_(name: u16, value: Expr) -> Stmt {
    Stmt::Let(text(name), value)
}

pub fn assign(name: u16, value: Expr) -> Stmt {
    Stmt::Assign(text(name), value)
}

pub fn storage_write(name: u16, value: Expr) -> Stmt {
    Stmt::StorageWrite(text(name), value)
}

pub fn mapping_write(name: u16, key: Expr, value: Expr) -> Stmt {
    Stmt::MappingWrite(text(name), key, value)
}

pub fn for_(name: u16, start: Expr, end: Expr, body: Vec<Stmt>) -> Stmt {
    Stmt::For {
        var: text(name),
        start,
        end,
        body,
    }
}

pub fn emit(name: u16, arguments: Vec<Expr>) -> Stmt {
    Stmt::Emit(text(name), arguments)
}

pub fn returning(value: Expr) -> Stmt {
    Stmt::Return(Some(value))
}
