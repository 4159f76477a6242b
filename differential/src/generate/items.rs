//! What a generated contract declares: storage fields, structs and function
//! signatures, all made before the first body so that bodies can refer to
//! every one of them.

use super::rng::Rng;
use crate::ast::{Contract, Function};
use crate::build;

/// The type of a value in the lowered program.
#[derive(Debug, Clone, Copy, PartialEq, Eq)]
pub enum Ty {
    U64,
    Bool,
    Field,
    Struct(u16),
    Void,
}

pub struct Signature {
    pub name: u16,
    pub params: Vec<(u16, u16)>,
    pub returns: Option<u16>,
}

/// Calls of the names 5 to 9 never reach a declared function.
fn is_builtin(name: u16) -> bool {
    (5..=9).contains(&name)
}

/// A type name as a parameter or a function's own return type reads it.
pub fn own_type(name: u16) -> Ty {
    match name {
        1 => Ty::U64,
        2 => Ty::Bool,
        3 => Ty::Field,
        0 | 4 => Ty::Void,
        other => Ty::Struct(other),
    }
}

/// A type name as a call reads it, and as the body check does.
pub fn call_type(name: u16) -> Ty {
    match name {
        0 | 4 => Ty::Struct(name),
        other => own_type(other),
    }
}

pub struct Items {
    /// The names that most choices take.
    pub names: Vec<u16>,
    pub storage: Vec<(u16, u16)>,
    pub structs: Vec<(u16, Vec<(u16, u16)>)>,
    pub functions: Vec<Signature>,
}

impl Items {
    pub fn random(rng: &mut Rng) -> Self {
        let mut items = Items {
            names: names(rng),
            storage: Vec::new(),
            structs: Vec::new(),
            functions: Vec::new(),
        };
        for _ in 0..count(rng, 5, 256) {
            let field = items.field(rng);
            items.storage.push(field);
        }
        for _ in 0..count(rng, 4, 64) {
            let fields = (0..count(rng, 5, 64)).map(|_| items.field(rng)).collect();
            let name = items.name(rng);
            items.structs.push((name, fields));
        }
        for _ in 0..count(rng, 4, 63) + 1 {
            let signature = items.signature(rng);
            items.functions.push(signature);
        }
        items
    }

    /// Any name: mostly one of the contract's own, sometimes a reserved one.
    pub fn name(&self, rng: &mut Rng) -> u16 {
        match rng.one_in(12) {
            true => rng.below(10) as u16,
            false => rng.pick(&self.names),
        }
    }

    fn type_name(&self, rng: &mut Rng) -> u16 {
        match rng.below(8) {
            0..=3 => 1,
            4 => 2,
            5 => rng.below(5) as u16,
            6 if !self.structs.is_empty() => self.structs[rng.below(self.structs.len())].0,
            _ => self.name(rng),
        }
    }

    fn field(&self, rng: &mut Rng) -> (u16, u16) {
        (self.name(rng), self.type_name(rng))
    }

    /// A parameter: more often than a field of a declared struct.
    fn param(&self, rng: &mut Rng) -> (u16, u16) {
        let (name, ty) = self.field(rng);
        match !self.structs.is_empty() && rng.one_in(3) {
            true => (name, self.structs[rng.below(self.structs.len())].0),
            false => (name, ty),
        }
    }

    fn signature(&self, rng: &mut Rng) -> Signature {
        let count = match rng.one_in(12) {
            true => rng.between(14, 16),
            false => rng.below(4),
        };
        Signature {
            name: self.name(rng),
            params: (0..count).map(|_| self.param(rng)).collect(),
            returns: (!rng.one_in(3)).then(|| self.type_name(rng)),
        }
    }

    /// The type of a call of this name; none for a void one. The last function
    /// of a name serves.
    pub fn call_type(&self, name: u16) -> Option<Ty> {
        self.last_function(name)?.returns.map(call_type)
    }

    pub fn last_function(&self, name: u16) -> Option<&Signature> {
        self.functions.iter().rev().find(|f| f.name == name)
    }

    /// The functions whose calls have this type; for none, the void ones.
    pub fn callable(&self, wanted: Option<Ty>) -> Vec<&Signature> {
        let serves = |f: &&Signature| !is_builtin(f.name) && self.call_type(f.name) == wanted;
        self.functions.iter().filter(serves).collect()
    }

    /// The fields of the last struct of a name.
    pub fn struct_fields(&self, name: u16) -> &[(u16, u16)] {
        let last = self.structs.iter().rev().find(|s| s.0 == name);
        last.map_or(&[], |s| &s.1)
    }

    /// The type of the last field of a name of the last struct of a name.
    pub fn field_type(&self, structure: u16, name: u16) -> Option<Ty> {
        let fields = self.struct_fields(structure).iter().rev();
        let mut named = fields.filter(|field| field.0 == name);
        named.next().map(|field| call_type(field.1))
    }

    /// The contract that declares all this, with the given function bodies.
    pub fn contract(&self, name: u16, functions: Vec<Function>) -> Contract {
        let fields = |entries: &[(u16, u16)]| {
            let entries = entries.iter();
            entries.map(|&(name, ty)| build::field(name, ty)).collect()
        };
        let structs = self.structs.iter();
        Contract {
            storage: fields(&self.storage),
            structs: structs
                .map(|(name, entries)| build::structure(*name, fields(entries)))
                .collect(),
            ..build::contract(name, functions)
        }
    }
}

/// How many of something: mostly fewer than `few`, rarely up to `most`.
fn count(rng: &mut Rng, few: usize, most: usize) -> usize {
    match rng.one_in(100) {
        true => rng.below(most + 1),
        false => rng.below(few),
    }
}

/// A few names, some of which agree in their lower or upper byte.
fn names(rng: &mut Rng) -> Vec<u16> {
    let mut names = vec![10, 11, 12, 20];
    for _ in 0..rng.below(6) {
        let more = match rng.below(4) {
            0 => 256 + rng.between(10, 20) as u16,
            1 => rng.pick(&[255, 256, 32_767, 32_768, 65_533, 65_534]),
            _ => rng.between(10, 30) as u16,
        };
        names.push(more);
    }
    names
}
