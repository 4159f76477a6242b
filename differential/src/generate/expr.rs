//! Random expressions.

use super::body::Body;
use super::items::{own_type, Signature, Ty};
use crate::ast::Expr;
use crate::build::*;
use crate::sheet::contract_read::operator;

const POSEIDON: u16 = 5;
const MERKLE: u16 = 6;
const FIRST_COMPARISON: usize = 4;

impl Body<'_> {
    /// A type that some value is likely to have.
    pub fn any_type(&mut self) -> Ty {
        match self.rng.below(6) {
            0 | 1 => Ty::Bool,
            2 => self.variable(|_| true).map_or(Ty::U64, |found| found.1),
            3 if !self.items.functions.is_empty() => {
                let called = self.rng.below(self.items.functions.len());
                let name = self.items.functions[called].name;
                self.items.call_type(name).unwrap_or(Ty::U64)
            }
            _ => Ty::U64,
        }
    }

    pub fn any_value(&mut self, depth: u32) -> Expr {
        let wanted = self.any_type();
        self.value(wanted, depth).0
    }

    pub fn any_values(&mut self, count: usize, depth: u32) -> Vec<Expr> {
        (0..count).map(|_| self.any_value(depth)).collect()
    }

    /// A value of the wanted type where one can be had, and the type it has.
    pub fn value(&mut self, wanted: Ty, depth: u32) -> (Expr, Ty) {
        if self.slips() {
            return (self.mistaken_value(depth), Ty::U64);
        }
        if self.left == 0 || depth >= self.deepest {
            return self.leaf(wanted);
        }
        self.left -= 1;
        match self.rng.below(8) {
            0 | 1 => self.leaf(wanted),
            2 => self.called_value(wanted, depth),
            3 | 4 if wanted != Ty::Bool => self.arithmetic(wanted, depth),
            5 if wanted == Ty::U64 => (self.field_value(depth), Ty::U64),
            6 if wanted == Ty::U64 => (self.builtin_value(depth), Ty::U64),
            _ if wanted == Ty::Bool => self.comparison(depth),
            _ => self.leaf(wanted),
        }
    }

    /// A value without children; of type U64 if no other can be had.
    fn leaf(&mut self, wanted: Ty) -> (Expr, Ty) {
        if wanted != Ty::U64 || self.rng.one_in(2) {
            if let Some((name, ty)) = self.variable(|ty| ty == wanted) {
                return (ident(name), ty);
            }
        }
        let storage = &self.items.storage;
        let leaf = match self.rng.below(4) {
            0 if !storage.is_empty() => storage_read(self.rng.pick(storage).0),
            1 => call(self.rng.between(7, 9) as u16, vec![]),
            2 => int(self.rng.edge_u64()),
            _ => int(self.rng.below(4) as u64),
        };
        (leaf, Ty::U64)
    }

    fn arithmetic(&mut self, wanted: Ty, depth: u32) -> (Expr, Ty) {
        let operation = operator(self.rng.below(FIRST_COMPARISON) as u16);
        let (left, ty) = self.value(wanted, depth + 1);
        let (right, _) = self.value(ty, depth + 1);
        (binary(left, operation, right), ty)
    }

    fn comparison(&mut self, depth: u32) -> (Expr, Ty) {
        let operation = operator(self.rng.between(FIRST_COMPARISON, 9) as u16);
        let wanted = if self.rng.one_in(6) {
            self.any_type()
        } else {
            Ty::U64
        };
        let (left, ty) = self.value(wanted, depth + 1);
        let (right, _) = self.value(ty, depth + 1);
        (binary(left, operation, right), Ty::Bool)
    }

    /// A call of a function of the wanted type.
    fn called_value(&mut self, wanted: Ty, depth: u32) -> (Expr, Ty) {
        let callable = self.items.callable(Some(wanted));
        if callable.is_empty() {
            return self.leaf(wanted);
        }
        let called = callable[self.rng.below(callable.len())];
        (self.call_of(called, depth), wanted)
    }

    /// A call, sometimes with a wrong count of arguments, which the lowering
    /// does not mind.
    pub fn call_of(&mut self, called: &Signature, depth: u32) -> Expr {
        let mut arguments = Vec::new();
        for &(_, ty) in &called.params {
            arguments.push(self.value(own_type(ty), depth + 1).0);
        }
        match self.rng.below(12) {
            0 => drop(arguments.pop()),
            1 => arguments.push(self.any_value(depth + 1)),
            _ => (),
        }
        call(called.name, arguments)
    }

    /// A field of a struct value; a number if there is no struct value.
    fn field_value(&mut self, depth: u32) -> Expr {
        let structs = self.items.structs.iter().map(|s| s.0);
        let structs: Vec<u16> = structs.chain([0, 4]).collect();
        let name = self.rng.pick(&structs);
        let fields = self.items.struct_fields(name);
        match self.value(Ty::Struct(name), depth + 1) {
            (base, Ty::Struct(_)) if !fields.is_empty() => access(base, self.rng.pick(fields).0),
            (base, _) => base,
        }
    }

    fn builtin_value(&mut self, depth: u32) -> Expr {
        if self.rng.one_in(2) {
            let pair = vec![self.any_value(depth + 1), self.any_value(depth + 1)];
            return call(POSEIDON, pair);
        }
        // The arguments of a context read are ignored, whatever they are.
        let slip = std::mem::replace(&mut self.slip, 3);
        let count = self.rng.below(3);
        let ignored = self.any_values(count, depth + 1);
        self.slip = slip;
        call(self.rng.between(7, 9) as u16, ignored)
    }

    /// An expression that the lowering is likely to refuse. Half of the time
    /// mistakes are frequent within it, so that it matters which one is met
    /// first.
    fn mistaken_value(&mut self, depth: u32) -> Expr {
        self.left = self.left.saturating_sub(1);
        let name = self.items.name(self.rng);
        if depth >= self.deepest {
            return ident(name);
        }
        let slip = self.slip;
        if self.rng.one_in(2) {
            self.slip = 3;
        }
        let mistake = self.mistake(name, depth);
        self.slip = slip;
        mistake
    }

    fn mistake(&mut self, name: u16, depth: u32) -> Expr {
        let void = self.items.callable(None);
        match self.rng.below(11) {
            0 => ident(name),
            1 => storage_read(name),
            2 => call(name, self.some_values(3, depth)),
            3 if !void.is_empty() => {
                let called = void[self.rng.below(void.len())];
                self.call_of(called, depth)
            }
            4 => access(self.any_value(depth + 1), name),
            5 => self.mistaken_field(name, depth),
            6 => mapping_read(name, self.any_value(depth + 1)),
            7 => self.literal_value(name, depth),
            8 => call(POSEIDON, self.some_values(5, depth)),
            9 => call(MERKLE, self.some_values(4, depth)),
            _ => self.any_value(depth),
        }
    }

    fn some_values(&mut self, bound: usize, depth: u32) -> Vec<Expr> {
        let count = self.rng.below(bound);
        self.any_values(count, depth + 1)
    }

    /// A field of a struct value that need not have it.
    fn mistaken_field(&mut self, field: u16, depth: u32) -> Expr {
        match self.variable(|ty| matches!(ty, Ty::Struct(_))) {
            Some((name, _)) => access(ident(name), field),
            None => access(self.any_value(depth + 1), field),
        }
    }

    fn literal_value(&mut self, name: u16, depth: u32) -> Expr {
        // Its fields are records too, so that the values are two levels down.
        if depth + 2 > self.deepest {
            return literal(name, vec![]);
        }
        let count = self.rng.below(3);
        let mut field = || (self.items.name(self.rng), self.any_value(depth + 2));
        literal(name, (0..count).map(|_| field()).collect())
    }
}
