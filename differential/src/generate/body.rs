//! Random statements.

use super::contract::Style;
use super::items::{own_type, Items, Signature, Ty};
use super::rng::Rng;
use crate::ast::Stmt;
use crate::build::*;

/// A function body under way.
pub struct Body<'a> {
    pub rng: &'a mut Rng,
    pub items: &'a Items,
    /// The variables of the open scopes, as the lowering keeps them.
    pub scopes: Vec<Vec<(u16, Ty)>>,
    returns: Ty,
    pub slip: usize,
    /// How many more records may be made.
    pub left: usize,
    pub deepest: u32,
}

/// The depth of a statement that stands directly in a function.
const STATEMENT_DEPTH: u32 = 3;

impl<'a> Body<'a> {
    pub fn new(
        rng: &'a mut Rng,
        items: &'a Items,
        style: Style,
        signature: &Signature,
    ) -> Body<'a> {
        let params = signature.params.iter();
        let left = rng.below(style.records + 1);
        Body {
            rng,
            items,
            scopes: vec![params.map(|&(name, ty)| (name, own_type(ty))).collect()],
            returns: signature.returns.map_or(Ty::Void, own_type),
            slip: style.slip,
            left,
            deepest: style.deepest,
        }
    }

    /// The whole body. A function with a return type mostly ends in a Return,
    /// since the verifier refuses it otherwise.
    pub fn all(mut self) -> Vec<Stmt> {
        let mut body = Vec::new();
        while self.left > 0 && !self.rng.one_in(60) {
            body.push(self.statement(STATEMENT_DEPTH));
        }
        if self.returns != Ty::Void && !self.rng.one_in(8) {
            let last = self.return_statement(STATEMENT_DEPTH);
            body.push(last);
        }
        body
    }

    /// Whether the next choice shall be a mistake.
    pub fn slips(&mut self) -> bool {
        self.slip > 0 && self.rng.one_in(self.slip)
    }

    /// The newest variable of the innermost scope that holds the name.
    pub fn lookup(&self, name: u16) -> Option<Ty> {
        let scopes = self.scopes.iter().rev();
        let found = |scope: &Vec<(u16, Ty)>| {
            let entry = scope.iter().rev().find(|entry| entry.0 == name);
            entry.map(|entry| entry.1)
        };
        scopes.map(found).find(Option::is_some).flatten()
    }

    /// A variable in scope of a fitting type. A few random tries are enough:
    /// with many variables in scope a search for all would be slow.
    pub fn variable(&mut self, fits: impl Fn(Ty) -> bool) -> Option<(u16, Ty)> {
        let total: usize = self.scopes.iter().map(Vec::len).sum();
        for _ in 0..total.min(6) {
            let position = self.rng.below(total);
            let name = self.scopes.iter().flatten().nth(position)?.0;
            let ty = self.lookup(name)?;
            if fits(ty) {
                return Some((name, ty));
            }
        }
        None
    }

    fn statement(&mut self, depth: u32) -> Stmt {
        self.left = self.left.saturating_sub(1);
        if self.slips() {
            return self.mistaken_statement(depth);
        }
        // Statements with blocks need three more levels.
        let choices = if depth + 3 <= self.deepest { 24 } else { 17 };
        match self.rng.below(choices) {
            0..=4 => self.let_statement(depth),
            5..=7 => self.assign_statement(depth),
            8 | 9 => self.constrain_statement(depth),
            10 | 11 => self.storage_statement(depth),
            12 | 13 => self.emit_statement(depth),
            14 | 15 => self.expression_statement(depth),
            16 => self.return_statement(depth),
            17..=19 => self.if_statement(depth),
            20 | 21 => self.while_statement(depth),
            _ => self.for_statement(depth),
        }
    }

    fn mistaken_statement(&mut self, depth: u32) -> Stmt {
        let name = self.items.name(self.rng);
        let slip = std::mem::replace(&mut self.slip, 3);
        let value = self.any_value(depth + 1);
        let statement = match self.rng.below(7) {
            0 => assign(name, value),
            1 => storage_write(name, value),
            2 => mapping_write(name, value, self.any_value(depth + 1)),
            3 => for_(name, value, self.any_value(depth + 1), vec![]),
            4 => let_(name, value),
            5 => returning(value),
            _ => Stmt::Return(None),
        };
        self.slip = slip;
        statement
    }

    fn let_statement(&mut self, depth: u32) -> Stmt {
        let name = self.items.name(self.rng);
        let wanted = self.any_type();
        let (value, ty) = self.value(wanted, depth + 1);
        let scope = self.scopes.last_mut().expect("a scope is open");
        scope.push((name, ty));
        let_(name, value)
    }

    fn assign_statement(&mut self, depth: u32) -> Stmt {
        match self.variable(|_| true) {
            Some((name, wanted)) => assign(name, self.value(wanted, depth + 1).0),
            None => self.let_statement(depth),
        }
    }

    fn constrain_statement(&mut self, depth: u32) -> Stmt {
        Stmt::Constrain(self.value(Ty::Bool, depth + 1).0)
    }

    fn storage_statement(&mut self, depth: u32) -> Stmt {
        if self.items.storage.is_empty() {
            return self.emit_statement(depth);
        }
        let (name, _) = self.rng.pick(&self.items.storage);
        storage_write(name, self.value(Ty::U64, depth + 1).0)
    }

    fn emit_statement(&mut self, depth: u32) -> Stmt {
        let count = match self.rng.one_in(30) {
            true => self.rng.between(15, 17),
            false => self.rng.below(4),
        };
        let name = self.items.name(self.rng);
        emit(name, self.any_values(count, depth + 1))
    }

    /// An expression whose value is dropped, often a void call.
    fn expression_statement(&mut self, depth: u32) -> Stmt {
        let void = self.items.callable(None);
        if void.is_empty() || self.rng.one_in(2) {
            return Stmt::Expr(self.any_value(depth + 1));
        }
        let called = void[self.rng.below(void.len())];
        Stmt::Expr(self.call_of(called, depth + 1))
    }

    fn return_statement(&mut self, depth: u32) -> Stmt {
        match self.returns {
            Ty::Void => Stmt::Return(None),
            wanted => returning(self.value(wanted, depth + 1).0),
        }
    }

    fn if_statement(&mut self, depth: u32) -> Stmt {
        let condition = self.value(Ty::Bool, depth + 1).0;
        let then = self.scoped_block(depth, None);
        let otherwise = self.rng.one_in(2).then(|| self.scoped_block(depth, None));
        Stmt::If(condition, then, otherwise)
    }

    fn while_statement(&mut self, depth: u32) -> Stmt {
        let condition = self.value(Ty::Bool, depth + 1).0;
        Stmt::While(condition, self.scoped_block(depth, None))
    }

    fn for_statement(&mut self, depth: u32) -> Stmt {
        let start = self.value(Ty::U64, depth + 1).0;
        let end = self.value(Ty::U64, depth + 1).0;
        let name = self.items.name(self.rng);
        for_(name, start, end, self.scoped_block(depth, Some(name)))
    }

    /// The statements of a block in its own scope, which may hold a loop's
    /// variable. What follows a Return is skipped by the lowering unchecked,
    /// so that mistakes are as welcome there as anything else.
    fn scoped_block(&mut self, depth: u32, variable: Option<u16>) -> Vec<Stmt> {
        self.scopes
            .push(variable.iter().map(|&name| (name, Ty::U64)).collect());
        let slip = self.slip;
        let mut block = Vec::new();
        for _ in 0..self.rng.below(4) {
            if self.left == 0 {
                break;
            }
            let statement = self.statement(depth + 2);
            if matches!(statement, Stmt::Return(_)) {
                self.slip = 3;
            }
            block.push(statement);
        }
        self.slip = slip;
        self.scopes.pop();
        block
    }
}
