//! Random contracts that the body check accepts, but for mistakes that are made
//! on purpose. Names and types are kept as it keeps them.

use super::contract::Style;
use super::items::{call_type, Items, Signature, Ty};
use super::rng::Rng;
use crate::ast::{Contract, Expr, Function, Stmt};
use crate::build::*;
use crate::sheet::contract_read::operator;

/// A function body under way.
struct Body<'a> {
    rng: &'a mut Rng,
    items: &'a Items,
    /// The names that are known, the newest last, and their types; none for an
    /// unknown one.
    held: Vec<(u16, Option<Ty>)>,
    returns: Ty,
    slip: usize,
    /// How many more records may be made.
    left: usize,
    deepest: u32,
}

/// The depth of a statement that stands directly in a function.
const STATEMENT_DEPTH: u32 = 3;

/// A random contract: one choice in `slip` is a mistake; for 0 it has none.
pub fn contract(rng: &mut Rng, slip: usize) -> Contract {
    let style = Style {
        slip,
        ..Style::random(rng)
    };
    let items = Items::random(rng);
    let functions = items.functions.iter();
    let functions = functions
        .map(|signature| function(rng, style, &items, signature))
        .collect();
    let name = items.name(rng);
    items.contract(name, functions)
}

fn function(rng: &mut Rng, style: Style, items: &Items, signature: &Signature) -> Function {
    let params = signature.params.iter();
    let left = rng.below(style.records + 1);
    let mut body = Body {
        rng,
        items,
        held: params
            .map(|&(name, ty)| (name, Some(call_type(ty))))
            .collect(),
        returns: result(signature),
        slip: style.slip,
        left,
        deepest: style.deepest,
    };
    let mut statements = Vec::new();
    while body.left > 0 && !body.rng.one_in(60) {
        statements.push(body.statement(STATEMENT_DEPTH));
    }
    let function = crate::build::function(signature.name, signature.returns, statements);
    function_of(&signature.params, function)
}

/// What a function gives.
fn result(signature: &Signature) -> Ty {
    signature.returns.map_or(Ty::Void, call_type)
}

impl Body<'_> {
    /// Whether the next choice shall be a mistake.
    fn slips(&mut self) -> bool {
        self.slip > 0 && self.rng.one_in(self.slip)
    }

    fn any_name(&mut self) -> u16 {
        self.items.name(self.rng)
    }

    /// A name whose newest type fits. A few random tries are enough.
    fn variable(&mut self, fits: impl Fn(Option<Ty>) -> bool) -> Option<(u16, Option<Ty>)> {
        for _ in 0..self.held.len().min(6) {
            let name = self.rng.pick(&self.held).0;
            let newest = self.held.iter().rev().find(|entry| entry.0 == name)?;
            if fits(newest.1) {
                return Some(*newest);
            }
        }
        None
    }

    fn statement(&mut self, depth: u32) -> Stmt {
        self.left = self.left.saturating_sub(1);
        if self.slips() {
            return self.mistaken_statement(depth);
        }
        // Statements with blocks need three more levels.
        let choices = if depth + 3 <= self.deepest { 16 } else { 12 };
        match self.rng.below(choices) {
            0..=3 => self.let_statement(depth),
            4..=6 => self.assign_statement(depth),
            7 => Stmt::Constrain(self.any_value(depth + 1)),
            8 => storage_write(self.any_name(), self.any_value(depth + 1)),
            9 => self.other_statement(depth),
            10 => Stmt::Expr(self.any_value(depth + 1)),
            11 => self.return_statement(depth),
            12 | 13 => self.if_statement(depth),
            14 => Stmt::While(self.any_value(depth + 1), self.block(depth)),
            _ => self.for_statement(depth),
        }
    }

    fn let_statement(&mut self, depth: u32) -> Stmt {
        let name = self.any_name();
        if self.rng.one_in(6) {
            if let Some(value) = self.unknown_value() {
                self.held.push((name, None));
                return let_(name, value);
            }
        }
        let wanted = self.any_type();
        let (value, ty) = match self.value(wanted, depth + 1) {
            Some(value) => (value, wanted),
            None => (int(1), Ty::U64),
        };
        self.held.push((name, Some(ty)));
        let_(name, value)
    }

    fn assign_statement(&mut self, depth: u32) -> Stmt {
        let Some((name, ty)) = self.variable(|_| true) else {
            return self.let_statement(depth);
        };
        let wanted = ty.unwrap_or_else(|| self.any_type());
        let value = self.value(wanted, depth + 1);
        assign(name, value.unwrap_or_else(|| ident(name)))
    }

    fn other_statement(&mut self, depth: u32) -> Stmt {
        let name = self.any_name();
        if self.rng.one_in(2) {
            let count = self.rng.below(4);
            return emit(name, self.any_values(count, depth + 1));
        }
        let key = self.any_value(depth + 1);
        mapping_write(name, key, self.any_value(depth + 1))
    }

    fn return_statement(&mut self, depth: u32) -> Stmt {
        let value = self.value(self.returns, depth + 1);
        match (value, self.returns) {
            (Some(value), Ty::Void) if self.rng.one_in(3) => returning(value),
            (_, Ty::Void) => Stmt::Return(None),
            (Some(value), _) => returning(value),
            (None, _) => self.let_statement(depth),
        }
    }

    fn if_statement(&mut self, depth: u32) -> Stmt {
        let condition = self.any_value(depth + 1);
        let then = self.block(depth);
        let otherwise = self.rng.one_in(2).then(|| self.block(depth));
        Stmt::If(condition, then, otherwise)
    }

    /// What its body holds ends with it.
    fn for_statement(&mut self, depth: u32) -> Stmt {
        let start = self.any_value(depth + 1);
        let end = self.any_value(depth + 1);
        let name = self.any_name();
        let before = self.held.len();
        self.held.push((name, Some(Ty::U64)));
        let body = self.block(depth);
        self.held.truncate(before);
        for_(name, start, end, body)
    }

    fn block(&mut self, depth: u32) -> Vec<Stmt> {
        let mut block = Vec::new();
        for _ in 0..self.rng.below(4) {
            if self.left > 0 {
                block.push(self.statement(depth + 2));
            }
        }
        block
    }

    fn mistaken_statement(&mut self, depth: u32) -> Stmt {
        let name = self.any_name();
        let held = self.variable(|_| true).map_or(name, |found| found.0);
        let value = self.any_value(depth + 1);
        match self.rng.below(5) {
            0 => assign(name, value),
            1 => assign(held, value),
            2 => returning(value),
            3 => Stmt::Return(None),
            _ => Stmt::Expr(self.mistaken_value(depth + 1)),
        }
    }

    /// A type that some value is likely to have.
    fn any_type(&mut self) -> Ty {
        let functions = &self.items.functions;
        match self.rng.below(4) {
            0 => result(&functions[self.rng.below(functions.len())]),
            1 | 2 => {
                let found = self.variable(|ty| ty.is_some());
                found.and_then(|found| found.1).unwrap_or(Ty::U64)
            }
            _ => Ty::U64,
        }
    }

    fn any_value(&mut self, depth: u32) -> Expr {
        let wanted = self.any_type();
        self.value(wanted, depth).unwrap_or_else(|| int(1))
    }

    fn any_values(&mut self, count: usize, depth: u32) -> Vec<Expr> {
        (0..count).map(|_| self.any_value(depth)).collect()
    }

    /// A value of the wanted type, or of unknown type, where one is found.
    fn value(&mut self, wanted: Ty, depth: u32) -> Option<Expr> {
        if self.slips() {
            return Some(self.mistaken_value(depth));
        }
        if self.left == 0 || depth >= self.deepest {
            return self.leaf(wanted);
        }
        self.left -= 1;
        let larger = match self.rng.below(9) {
            0 | 1 => self.binary_value(wanted, depth),
            2 | 3 => self.called_value(wanted, depth),
            4 => self.field_value(wanted, depth),
            5 => self.literal_value(wanted, depth),
            6 if wanted == Ty::U64 => self.builtin_value(depth),
            7 if self.rng.one_in(3) => self.unknown_value(),
            _ => None,
        };
        larger.or_else(|| self.leaf(wanted))
    }

    /// A value without children.
    fn leaf(&mut self, wanted: Ty) -> Option<Expr> {
        if let Some((name, _)) = self.variable(|ty| ty == Some(wanted)) {
            return Some(ident(name));
        }
        match wanted {
            Ty::U64 => Some(match self.rng.below(3) {
                0 => storage_read(self.any_name()),
                1 => call(self.rng.between(7, 9) as u16, vec![]),
                _ => int(self.rng.edge_u64()),
            }),
            Ty::Struct(name) if self.declares(name) => Some(literal(name, vec![])),
            _ => {
                let called = self.called(wanted)?;
                called.params.is_empty().then(|| call(called.name, vec![]))
            }
        }
    }

    fn declares(&self, structure: u16) -> bool {
        self.items.structs.iter().any(|s| s.0 == structure)
    }

    /// A function whose calls give the wanted type.
    fn called(&mut self, wanted: Ty) -> Option<&Signature> {
        let wanted = (wanted != Ty::Void).then_some(wanted);
        let callable = self.items.callable(wanted);
        let name = callable.get(self.rng.below(callable.len().max(1)))?.name;
        self.items.last_function(name)
    }

    fn binary_value(&mut self, wanted: Ty, depth: u32) -> Option<Expr> {
        let operation = operator(self.rng.below(10) as u16);
        let left = self.value(wanted, depth + 1)?;
        let right = self.value(wanted, depth + 1)?;
        Some(binary(left, operation, right))
    }

    fn called_value(&mut self, wanted: Ty, depth: u32) -> Option<Expr> {
        let called = self.called(wanted)?;
        let (name, params) = (called.name, called.params.clone());
        let mut arguments = Vec::new();
        for (_, ty) in params {
            arguments.push(self.value(call_type(ty), depth + 1)?);
        }
        Some(call(name, arguments))
    }

    fn builtin_value(&mut self, depth: u32) -> Option<Expr> {
        if self.rng.one_in(4) {
            return Some(mapping_read(self.any_name(), self.any_value(depth + 1)));
        }
        let name = self.rng.pick(&[5, 6]);
        let count = name as usize - 3;
        let arguments: Option<Vec<Expr>> =
            (0..count).map(|_| self.value(Ty::U64, depth + 1)).collect();
        Some(call(name, arguments?))
    }

    /// A field of the wanted type of a declared struct.
    fn field_value(&mut self, wanted: Ty, depth: u32) -> Option<Expr> {
        let structs = &self.items.structs;
        let name = structs.get(self.rng.below(structs.len().max(1)))?.0;
        let fields = self.items.struct_fields(name);
        let field = fields.get(self.rng.below(fields.len().max(1)))?.0;
        if self.items.field_type(name, field)? != wanted {
            return None;
        }
        let base = self.value(Ty::Struct(name), depth + 1)?;
        Some(access(base, field))
    }

    /// Some fields of the wanted struct, if it is declared.
    fn literal_value(&mut self, wanted: Ty, depth: u32) -> Option<Expr> {
        let Ty::Struct(name) = wanted else {
            return None;
        };
        let fields = self.items.struct_fields(name);
        // Its fields are records too, so that the values are two levels down.
        if !self.declares(name) || depth + 2 > self.deepest {
            return None;
        }
        let mut given = Vec::new();
        for &(field, _) in fields.iter().take(6) {
            let ty = self.items.field_type(name, field)?;
            if let (Some(value), false) = (self.value(ty, depth + 2), self.rng.one_in(4)) {
                given.push((field, value));
            }
        }
        Some(literal(name, given))
    }

    /// A field of a value whose struct is not declared, or whose own type is
    /// unknown.
    fn unknown_value(&mut self) -> Option<Expr> {
        let items = self.items;
        let found = self.variable(|ty| match ty {
            Some(Ty::Struct(name)) => items.structs.iter().all(|s| s.0 != name),
            other => other.is_none(),
        });
        let (name, ty) = found?;
        match ty.is_none() && self.rng.one_in(2) {
            true => Some(ident(name)),
            false => Some(access(ident(name), self.any_name())),
        }
    }

    /// A value that is likely to be refused, or of another type than wanted.
    fn mistaken_value(&mut self, depth: u32) -> Expr {
        self.left = self.left.saturating_sub(1);
        let name = self.any_name();
        if depth + 2 >= self.deepest {
            return ident(name);
        }
        let functions = &self.items.functions;
        let called = &functions[self.rng.below(functions.len())];
        let (declared, count) = (called.name, called.params.len());
        match self.rng.below(9) {
            0 => ident(name),
            1 => access(self.any_value(depth + 1), name),
            2 => self.mistaken_field(name),
            3 => self.mistaken_literal(name, depth),
            4 => {
                let count = self.rng.below(4);
                call(name, self.any_values(count, depth + 1))
            }
            5 => call(declared, self.any_values(count, depth + 1)),
            6 => {
                let operation = operator(self.rng.below(10) as u16);
                let left = self.any_value(depth + 1);
                binary(left, operation, self.any_value(depth + 1))
            }
            7 => call(5, self.any_values(2, depth + 1)),
            _ => self.any_value(depth),
        }
    }

    /// A field of a struct value that need not have it.
    fn mistaken_field(&mut self, field: u16) -> Expr {
        let base = self.variable(|ty| matches!(ty, Some(Ty::Struct(_))));
        access(ident(base.map_or(field, |found| found.0)), field)
    }

    /// A literal of a declared struct half of the time, with any fields.
    fn mistaken_literal(&mut self, name: u16, depth: u32) -> Expr {
        let structs = &self.items.structs;
        let name = match structs.is_empty() || self.rng.one_in(2) {
            true => name,
            false => structs[self.rng.below(structs.len())].0,
        };
        let mut given = Vec::new();
        for _ in 0..self.rng.below(4) {
            given.push((self.any_name(), self.any_value(depth + 2)));
        }
        literal(name, given)
    }
}
