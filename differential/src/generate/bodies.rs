//! All small bodies and all small expressions over a few statements and names.

use crate::ast::{BinOp, Contract, Expr, Stmt};
use crate::build::*;
use crate::sheet::contract_write;

const CONTRACT: u16 = 10;
const F: u16 = 11;
const G: u16 = 12;
const X: u16 = 20;
const Y: u16 = 21;
const P: u16 = 22;
const POINT: u16 = 30;
const STORED: u16 = 31;
const LOST: u16 = 99;
const U64: u16 = 1;

/// What is called with each sheet, until it gives false.
type Visit<'a> = dyn FnMut(&[u8]) -> bool + 'a;

/// Every such sheet.
pub fn each(visit: &mut Visit) -> bool {
    sequences(visit) && arms(visit) && nested(visit) && expressions(visit)
}

/// The body's function has a number X and a struct value P as parameters; one
/// of the two others gives no value.
fn of_body(body: Vec<Stmt>) -> Contract {
    let params = [(X, U64), (P, POINT)];
    Contract {
        storage: vec![field(STORED, U64)],
        structs: vec![structure(POINT, vec![field(X, U64), field(Y, U64)])],
        ..contract(
            CONTRACT,
            vec![
                function(F, None, vec![]),
                function_of(&params, function(13, Some(U64), body)),
                function_of(
                    &[(X, U64)],
                    function(G, Some(U64), vec![returning(ident(X))]),
                ),
            ],
        )
    }
}

fn ask(visit: &mut Visit, body: Vec<Stmt>) -> bool {
    visit(&contract_write::contract(&of_body(body)))
}

fn test() -> Expr {
    binary(ident(X), BinOp::Lt, int(2))
}

/// Statements without blocks.
fn statements() -> Vec<Stmt> {
    vec![
        let_(Y, int(1)),
        let_(X, ident(Y)),
        let_(P, test()),
        assign(Y, ident(X)),
        assign(X, ident(P)),
        Stmt::Expr(access(ident(P), Y)),
        storage_write(STORED, ident(Y)),
        Stmt::Constrain(test()),
        emit(X, vec![ident(P), ident(Y)]),
        Stmt::Expr(call(F, vec![])),
        Stmt::Expr(call(G, vec![ident(Y)])),
        Stmt::Return(None),
        returning(ident(X)),
        mapping_write(X, ident(Y), int(1)),
    ]
}

/// One of the statements above, or none.
fn at_most_one() -> Vec<Vec<Stmt>> {
    let one = statements().into_iter().map(|statement| vec![statement]);
    [vec![]].into_iter().chain(one).collect()
}

/// A body in each kind of block.
fn blocks(body: &[Stmt]) -> [Stmt; 4] {
    let body = || body.to_vec();
    [
        Stmt::If(test(), body(), None),
        Stmt::If(test(), vec![], Some(body())),
        Stmt::While(test(), body()),
        for_(Y, int(0), ident(X), body()),
    ]
}

/// Every body of up to three statements, plain and in each kind of block.
fn sequences(visit: &mut Visit) -> bool {
    let some = at_most_one();
    for first in &some {
        for second in &some {
            for third in &some {
                let body = [&first[..], second, third].concat();
                let after = || Stmt::Expr(ident(Y));
                let inside = blocks(&body).map(|block| vec![block, after()]);
                if !ask(visit, body) || !inside.into_iter().all(|body| ask(visit, body)) {
                    return false;
                }
            }
        }
    }
    true
}

/// Every If with up to one statement in either arm, and up to one behind it.
fn arms(visit: &mut Visit) -> bool {
    let some = at_most_one();
    for then in &some {
        for otherwise in &some {
            for after in &some {
                let arms = Stmt::If(test(), then.clone(), Some(otherwise.clone()));
                if !ask(visit, [&[arms][..], after].concat()) {
                    return false;
                }
            }
        }
    }
    true
}

/// Every block in a block, with up to one statement before, in and behind the
/// inner one.
fn nested(visit: &mut Visit) -> bool {
    let some = at_most_one();
    for inside in &some {
        for inner in blocks(inside) {
            for before in &some {
                for behind in &some {
                    let body = [&before[..], &[inner.clone()], behind].concat();
                    let outer = blocks(&body).map(|block| vec![block]);
                    if !outer.into_iter().all(|body| ask(visit, body)) {
                        return false;
                    }
                }
            }
        }
    }
    true
}

/// Expressions without children.
fn leaves() -> Vec<Expr> {
    vec![
        int(u64::MAX),
        ident(X),
        ident(P),
        ident(LOST),
        storage_read(STORED),
        storage_read(LOST),
        call(F, vec![]),
        call(LOST, vec![]),
        call(7, vec![]),
        literal(POINT, vec![]),
    ]
}

/// An expression around one.
fn around(inner: &Expr) -> [Expr; 7] {
    let inner = || inner.clone();
    [
        access(inner(), Y),
        access(inner(), LOST),
        mapping_read(X, inner()),
        call(5, vec![inner()]),
        call(6, vec![inner()]),
        call(9, vec![inner()]),
        call(G, vec![inner()]),
    ]
}

/// An expression around two.
fn of_two(left: &Expr, right: &Expr) -> [Expr; 4] {
    let pair = || vec![left.clone(), right.clone()];
    [
        binary(left.clone(), BinOp::Div, right.clone()),
        binary(left.clone(), BinOp::Neq, right.clone()),
        call(5, pair()),
        call(G, pair()),
    ]
}

/// Every expression of up to three levels, where one of two operands at least
/// is a leaf, as a statement and as what is returned.
fn expressions(visit: &mut Visit) -> bool {
    let leaves = leaves();
    let mut two: Vec<Expr> = leaves.iter().flat_map(around).collect();
    for left in &leaves {
        two.extend(leaves.iter().flat_map(|right| of_two(left, right)));
    }
    let mut ask_both = |value: &Expr| {
        let bodies = [Stmt::Expr(value.clone()), returning(value.clone())];
        bodies
            .into_iter()
            .all(|statement| ask(visit, vec![statement]))
    };
    let small = || leaves.iter().chain(&two);
    small().all(&mut ask_both)
        && two.iter().flat_map(around).all(|value| ask_both(&value))
        && two.iter().all(|larger| {
            leaves.iter().all(|leaf| {
                let mut both = of_two(larger, leaf).into_iter().chain(of_two(leaf, larger));
                both.all(|value| ask_both(&value))
            })
        })
}
