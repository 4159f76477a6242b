//! Random contracts: every statement and expression kind, mostly well scoped
//! and well typed.

use super::body::Body;
use super::items::Items;
use super::rng::Rng;
use crate::ast::{Contract, Expr, Function, Stmt};
use crate::build::{self, for_, ident, int, let_};

/// How a contract is made.
#[derive(Debug, Clone, Copy)]
pub struct Style {
    /// One choice in this many is a mistake; 0 for none.
    pub slip: usize,
    /// About how many records a function body has at most.
    pub records: usize,
    /// How deep records nest.
    pub deepest: u32,
}

impl Style {
    pub fn random(rng: &mut Rng) -> Self {
        let slip = match rng.below(8) {
            0..=3 => 0,
            4..=6 => 80,
            _ => 12,
        };
        let records = match rng.below(64) {
            0 => 1200,
            1..=12 => 120,
            13..=36 => 40,
            _ => 14,
        };
        let deepest = match rng.below(24) {
            0 => 41,
            1 => 40,
            2 => 20,
            _ => 10,
        };
        Style {
            slip,
            records,
            deepest,
        }
    }

    /// Small and without mistakes.
    pub fn small() -> Self {
        Style {
            slip: 0,
            records: 14,
            deepest: 9,
        }
    }
}

/// A random contract.
pub fn contract(rng: &mut Rng, style: Style) -> Contract {
    let items = Items::random(rng);
    let functions = (0..items.functions.len())
        .map(|position| function(rng, style, &items, position))
        .collect();
    let name = items.name(rng);
    items.contract(name, functions)
}

fn function(rng: &mut Rng, style: Style, items: &Items, position: usize) -> Function {
    let signature = &items.functions[position];
    let is_pub = rng.one_in(2);
    let body = Body::new(rng, items, style, signature).all();
    let function = build::function(signature.name, signature.returns, body);
    Function {
        is_pub,
        ..build::function_of(&signature.params, function)
    }
}

const X: u16 = 20;
const UNDECLARED: u16 = 99;

/// A contract whose last function has about 256 blocks or locals.
pub fn crowded(rng: &mut Rng) -> Contract {
    // Statements with blocks out of eight, and how many are then needed.
    let looping = rng.pick(&[0, 1, 2, 4, 8]);
    let needed = if looping < 2 { 250 } else { 85 * 8 / looping };
    let mut body = Vec::new();
    for _ in 0..needed.min(250) + rng.below(12) {
        body.push(match rng.below(8) < looping {
            true => crowded_loop(rng),
            false => let_(X, crowded_value(rng)),
        });
    }
    let mut functions = vec![build::function(11, None, body)];
    for _ in 0..rng.below(3) {
        functions.insert(0, build::function(12, None, vec![]));
    }
    build::contract(10, functions)
}

fn crowded_loop(rng: &mut Rng) -> Stmt {
    let inner = match rng.below(6) {
        0 => vec![let_(X, int(1))],
        1 => vec![Stmt::Return(None), let_(X, int(1))],
        _ => vec![],
    };
    match rng.below(4) {
        0 => Stmt::While(crowded_value(rng), inner),
        1 => for_(X, int(0), crowded_value(rng), inner),
        2 => Stmt::If(crowded_value(rng), vec![], Some(inner)),
        _ => Stmt::If(crowded_value(rng), inner, None),
    }
}

/// A number, or rarely a variable that is not there.
fn crowded_value(rng: &mut Rng) -> Expr {
    match rng.one_in(400) {
        true => ident(UNDECLARED),
        false => int(1),
    }
}
