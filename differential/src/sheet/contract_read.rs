//! A checked contract sheet to the Rust's AST.
//!
//! These functions recurse: call them only on sheets whose depth is within
//! the limit of 40.

use super::fields::Fields;
use super::kind::*;
use super::parse::{Node, Tree};
use crate::ast::{BinOp, Contract, Expr, Function, Param, Stmt, StorageField, Struct};

/// The contract of a well-formed contract sheet.
pub fn contract(tree: &Tree) -> Contract {
    let root = &tree.nodes[0];
    let mut contract = Contract {
        name: Fields::of(tree, root).name(),
        storage: Vec::new(),
        structs: Vec::new(),
        functions: Vec::new(),
    };
    for &child in &root.children {
        let node = &tree.nodes[child];
        match node.kind {
            STORAGE => contract.storage.push(named(&mut Fields::of(tree, node))),
            STRUCT => contract.structs.push(structure(tree, node)),
            _ => contract.functions.push(function(tree, node)),
        }
    }
    contract
}

/// A name and a type name.
fn named(fields: &mut Fields) -> StorageField {
    StorageField {
        name: fields.name(),
        ty: fields.name(),
    }
}

fn structure(tree: &Tree, node: &Node) -> Struct {
    let mut fields = Fields::of(tree, node);
    let mut structure = Struct {
        name: fields.name(),
        fields: Vec::new(),
    };
    while !fields.at_end() {
        structure.fields.push(named(&mut fields));
    }
    structure
}

fn function(tree: &Tree, node: &Node) -> Function {
    let mut fields = Fields::of(tree, node);
    let name = fields.name();
    let return_type = fields.name_or_absent();
    let is_pub = fields.u16() == 1;
    let mut params = Vec::new();
    for _ in 0..fields.u16() {
        params.push(Param {
            name: fields.name(),
            ty: fields.name(),
        });
    }
    Function {
        name,
        params,
        return_type,
        body: statements(tree, node),
        is_pub,
    }
}

/// The statements of a function or a block.
fn statements(tree: &Tree, node: &Node) -> Vec<Stmt> {
    let children = node.children.iter();
    children
        .map(|&child| statement(tree, &tree.nodes[child]))
        .collect()
}

fn statement(tree: &Tree, node: &Node) -> Stmt {
    let mut fields = Fields::of(tree, node);
    let expr = |position| expression_child(tree, node, position);
    let body = |position: usize| statements(tree, &tree.nodes[node.children[position]]);
    match node.kind {
        LET => Stmt::Let(fields.name(), expr(0)),
        CONSTRAIN => Stmt::Constrain(expr(0)),
        ASSIGN => Stmt::Assign(fields.name(), expr(0)),
        STORAGE_WRITE => Stmt::StorageWrite(fields.name(), expr(0)),
        MAPPING_WRITE => Stmt::MappingWrite(fields.name(), expr(0), expr(1)),
        IF => Stmt::If(expr(0), body(1), (node.children.len() > 2).then(|| body(2))),
        WHILE => Stmt::While(expr(0), body(1)),
        FOR => Stmt::For {
            var: fields.name(),
            start: expr(0),
            end: expr(1),
            body: body(2),
        },
        RETURN => Stmt::Return((!node.children.is_empty()).then(|| expr(0))),
        EMIT => Stmt::Emit(fields.name(), expressions(tree, node)),
        _ => Stmt::Expr(expr(0)),
    }
}

fn expression_child(tree: &Tree, node: &Node, position: usize) -> Expr {
    expression(tree, &tree.nodes[node.children[position]])
}

/// All children of a node that has expressions only.
fn expressions(tree: &Tree, node: &Node) -> Vec<Expr> {
    let children = node.children.iter();
    children
        .map(|&child| expression(tree, &tree.nodes[child]))
        .collect()
}

fn expression(tree: &Tree, node: &Node) -> Expr {
    let mut fields = Fields::of(tree, node);
    let child = |position| Box::new(expression_child(tree, node, position));
    match node.kind {
        INT => Expr::Int(fields.u64()),
        IDENT => Expr::Ident(fields.name()),
        STORAGE_READ => Expr::StorageRead(fields.name()),
        MAPPING_READ => Expr::MappingRead(fields.name(), child(0)),
        FIELD_ACCESS => Expr::FieldAccess(child(0), fields.name()),
        STRUCT_LITERAL => Expr::StructLiteral(fields.name(), literal_fields(tree, node)),
        BINARY => Expr::Binary(child(0), operator(fields.u16()), child(1)),
        _ => Expr::Call(fields.name(), expressions(tree, node)),
    }
}

fn literal_fields(tree: &Tree, node: &Node) -> Vec<(String, Expr)> {
    let read = |&child: &usize| {
        let field = &tree.nodes[child];
        let name = Fields::of(tree, field).name();
        (name, expression_child(tree, field, 0))
    };
    node.children.iter().map(read).collect()
}

/// The operator with this number, in the order of `BinOp`.
pub fn operator(number: u16) -> BinOp {
    match number {
        0 => BinOp::Add,
        1 => BinOp::Sub,
        2 => BinOp::Mul,
        3 => BinOp::Div,
        4 => BinOp::Eq,
        5 => BinOp::Neq,
        6 => BinOp::Lt,
        7 => BinOp::Gt,
        8 => BinOp::Lte,
        _ => BinOp::Gte,
    }
}
