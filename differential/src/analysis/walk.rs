//! The body check once more, written from its readings, to find the place.
//!
//! The Rust walks its AST and collects errors, and so do the definitions. Here
//! the records of the sheet are walked, all in the same way: a record's
//! children in their order, then its own rule; the walk ends at the first
//! error. Names and types are the sheet's numbers. One map holds the names of
//! a function; what a For hides is put back at its end.

use std::collections::HashMap;

use crate::names::ABSENT;
use crate::sheet::fields::Fields;
use crate::sheet::kind::*;
use crate::sheet::parse::{Node, Tree};

/// An error: the place of the record whose rule raised it, and the number of
/// its text.
#[derive(Debug, Clone, Copy, PartialEq, Eq)]
pub struct Finding {
    pub place: u32,
    pub number: u16,
}

/// The first error of a contract sheet that is well-formed and within the
/// limits.
pub fn first(tree: &Tree) -> Option<Finding> {
    let mut functions = children(tree, &tree.nodes[0], FUNCTION);
    functions.find_map(|node| Walk::of(tree, node).block(node).err())
}

/// What is known of a value.
#[derive(Debug, Clone, Copy, PartialEq, Eq)]
enum Type {
    U64,
    Bool,
    Field,
    /// A value of the struct of this name, declared or not.
    Struct(u16),
    Void,
    /// That of a field of a struct that is not declared.
    Unknown,
}

impl Type {
    /// The type that a type name stands for: the reserved names 0 and 4 are
    /// structs like all others.
    fn named(name: u16) -> Type {
        match name {
            1 => Type::U64,
            2 => Type::Bool,
            3 => Type::Field,
            ABSENT => Type::Void,
            other => Type::Struct(other),
        }
    }

    /// Whether two types differ, and both are known.
    fn clashes(self, other: Type) -> bool {
        let known = |ty| ty != Type::Unknown;
        known(self) && known(other) && self != other
    }
}

/// The children of a record that have a kind.
fn children<'t>(tree: &'t Tree, node: &'t Node, kind: u16) -> impl Iterator<Item = &'t Node> {
    let all = node.children.iter().map(|&child| &tree.nodes[child]);
    all.filter(move |child| child.kind == kind)
}

/// The name that a record begins with.
fn name_of(tree: &Tree, node: &Node) -> u16 {
    Fields::of(tree, node).u16()
}

/// The declaration of a name: the last one serves.
fn declared<'t>(tree: &'t Tree, kind: u16, name: u16) -> Option<&'t Node> {
    let of_name = |node: &&Node| name_of(tree, node) == name;
    children(tree, &tree.nodes[0], kind).filter(of_name).last()
}

/// The type of a field of a declared struct: the last one of a name serves.
fn field_type(tree: &Tree, structure: &Node, name: u16) -> Option<Type> {
    let mut fields = Fields::of(tree, structure);
    let mut found = None;
    fields.u16();
    while !fields.at_end() {
        let (field, ty) = (fields.u16(), fields.u16());
        if field == name {
            found = Some(Type::named(ty));
        }
    }
    found
}

/// The names and types of a function's parameters, and its return type.
fn signature(tree: &Tree, function: &Node) -> (Vec<(u16, Type)>, Type) {
    let mut fields = Fields::of(tree, function);
    let [_, returns, _, count] = [(); 4].map(|()| fields.u16());
    let mut params = Vec::new();
    for _ in 0..count {
        params.push((fields.u16(), Type::named(fields.u16())));
    }
    (params, Type::named(returns))
}

/// How many numbers a built-in takes.
fn builtin(name: u16) -> Option<usize> {
    match name {
        5 => Some(2),
        6 => Some(3),
        7..=9 => Some(0),
        _ => None,
    }
}

/// What a call of a name takes and gives: a built-in comes before a function.
fn called(tree: &Tree, name: u16) -> Option<(Vec<Type>, Type)> {
    if let Some(count) = builtin(name) {
        return Some((vec![Type::U64; count], Type::U64));
    }
    let (params, returns) = signature(tree, declared(tree, FUNCTION, name)?);
    Some((params.into_iter().map(|param| param.1).collect(), returns))
}

/// The error of a number at a record.
fn error<T>(node: &Node, number: u16) -> Result<T, Finding> {
    let place = node.place as u32;
    Err(Finding { place, number })
}

/// An error at a record, if there is one.
fn error_if(found: bool, node: &Node, number: u16) -> Result<(), Finding> {
    match found {
        true => error(node, number),
        false => Ok(()),
    }
}

/// The walk through a function.
struct Walk<'t> {
    tree: &'t Tree<'t>,
    returns: Type,
    held: HashMap<u16, Type>,
    /// For each open For what its names were before it, newest last.
    hidden: Vec<Vec<(u16, Option<Type>)>>,
}

impl<'t> Walk<'t> {
    /// The walk before the first statement: the last parameter of a name
    /// serves.
    fn of(tree: &'t Tree<'t>, function: &Node) -> Self {
        let (params, returns) = signature(tree, function);
        Walk {
            tree,
            returns,
            held: params.into_iter().collect(),
            hidden: Vec::new(),
        }
    }

    fn hold(&mut self, name: u16, ty: Type) {
        let before = self.held.insert(name, ty);
        if let Some(hidden) = self.hidden.last_mut() {
            hidden.push((name, before));
        }
    }

    /// The statements of a function or a block.
    fn block(&mut self, node: &Node) -> Result<(), Finding> {
        let mut statements = node.children.iter();
        statements.try_for_each(|&child| self.statement(&self.tree.nodes[child]))
    }

    /// The body of a For, whose names end with it.
    fn body(&mut self, variable: u16, block: &Node) -> Result<(), Finding> {
        self.hidden.push(Vec::new());
        self.hold(variable, Type::U64);
        self.block(block)?;
        for (name, before) in self.hidden.pop().into_iter().flatten().rev() {
            match before {
                Some(ty) => self.held.insert(name, ty),
                None => self.held.remove(&name),
            };
        }
        Ok(())
    }

    fn statement(&mut self, node: &Node) -> Result<(), Finding> {
        let known = |walk: &Self| walk.held.get(&name_of(walk.tree, node)).copied();
        if node.kind == ASSIGN {
            error_if(known(self).is_none(), node, 2)?;
        }
        let mut given = None;
        for &child in &node.children {
            let child = &self.tree.nodes[child];
            match (child.kind, node.kind) {
                (BLOCK, FOR) => self.body(name_of(self.tree, node), child)?,
                (BLOCK, _) => self.block(child)?,
                _ => given = Some(self.value(child)?),
            }
        }
        let given = given.unwrap_or(Type::Void);
        match node.kind {
            LET => self.hold(name_of(self.tree, node), given),
            ASSIGN => error_if(known(self).is_some_and(|ty| given.clashes(ty)), node, 1)?,
            RETURN => error_if(given.clashes(self.returns), node, 3)?,
            _ => (),
        }
        Ok(())
    }

    /// The type of an expression.
    fn value(&self, node: &Node) -> Result<Type, Finding> {
        if node.kind == STRUCT_LITERAL {
            return self.literal(node);
        }
        let mut parts = Vec::new();
        for &child in &node.children {
            parts.push(self.value(&self.tree.nodes[child])?);
        }
        match node.kind {
            IDENT => self.ident(node),
            FIELD_ACCESS => self.access(node, parts[0]),
            BINARY => error_if(parts[0].clashes(parts[1]), node, 13).map(|()| parts[0]),
            CALL => self.call(node, &parts),
            // An Int, a StorageRead, a MappingRead.
            _ => Ok(Type::U64),
        }
    }

    fn ident(&self, node: &Node) -> Result<Type, Finding> {
        let held = self.held.get(&name_of(self.tree, node)).copied();
        held.map_or_else(|| error(node, 4), Ok)
    }

    fn access(&self, node: &Node, base: Type) -> Result<Type, Finding> {
        let structure = match base {
            Type::Unknown => return Ok(Type::Unknown),
            Type::Struct(name) => declared(self.tree, STRUCT, name),
            _ => return error(node, 6),
        };
        let Some(structure) = structure else {
            return Ok(Type::Unknown);
        };
        let found = field_type(self.tree, structure, name_of(self.tree, node));
        found.map_or_else(|| error(node, 5), Ok)
    }

    /// The fields of an undeclared struct's literal are not looked at.
    fn literal(&self, node: &Node) -> Result<Type, Finding> {
        let name = name_of(self.tree, node);
        let Some(structure) = declared(self.tree, STRUCT, name) else {
            return error(node, 9);
        };
        for field in children(self.tree, node, LITERAL_FIELD) {
            let given = self.value(&self.tree.nodes[field.children[0]])?;
            match field_type(self.tree, structure, name_of(self.tree, field)) {
                Some(wanted) => error_if(given.clashes(wanted), node, 7)?,
                None => return error(node, 8),
            }
        }
        Ok(Type::Struct(name))
    }

    fn call(&self, node: &Node, arguments: &[Type]) -> Result<Type, Finding> {
        let Some((params, returns)) = called(self.tree, name_of(self.tree, node)) else {
            return error(node, 12);
        };
        error_if(params.len() != arguments.len(), node, 10)?;
        let mut pairs = params.iter().zip(arguments);
        error_if(
            pairs.any(|(wanted, given)| given.clashes(*wanted)),
            node,
            11,
        )?;
        Ok(returns)
    }
}
