//! The sheets and calls that the bench measures: the archive's and the Rust's,
//! side by side.

pub mod analyzing;
mod lowering;
pub mod measure;
mod verifying;

use std::hint::black_box;

use crate::ast::{BinOp, Expr};
use crate::build::binary;

/// The archive's call that a row measures.
#[derive(Debug, Clone, Copy, PartialEq, Eq)]
pub enum Operation {
    Lower,
    Verify,
    Form,
}

/// One line of a table.
pub struct Row {
    pub label: String,
    /// What the calls get.
    pub sheet: Vec<u8>,
    pub operation: Operation,
    /// The length of the finished sheet, or the number of the refusal.
    pub gives: String,
    /// The archive's call, the Rust's, and the Rust's with more or with less.
    pub calls: Vec<Box<dyn FnMut()>>,
}

/// Makes a row: only the rows that are measured are made.
pub type Maker = Box<dyn Fn() -> Row>;

/// What a table says of its rows.
#[derive(Debug, Clone, Copy, PartialEq, Eq)]
pub enum Columns {
    /// Times and instructions, and the time of a third call.
    Calls(&'static str),
    /// Times and instructions for each byte of the sheet.
    Growth,
}

pub struct Table {
    pub name: &'static str,
    pub columns: Columns,
    pub rows: Vec<Maker>,
}

pub fn tables() -> Vec<Table> {
    let table = |name, columns, rows| Table {
        name,
        columns,
        rows,
    };
    let in_memory = Columns::Calls("Rust, time without reading and writing sheets");
    let with_reading = Columns::Calls("Rust, time with reading the sheet");
    vec![
        table("lower", in_memory, lowering::sizes()),
        table("searches", in_memory, lowering::searches()),
        table("growth", Columns::Growth, lowering::growth()),
        table("verify", with_reading, verifying::rows()),
    ]
}

/// A call whose result is made and not looked at.
fn call<T: 'static>(mut call: impl FnMut() -> T + 'static) -> Box<dyn FnMut()> {
    Box::new(move || {
        black_box(call());
    })
}

fn add(left: Expr, right: Expr) -> Expr {
    binary(left, BinOp::Add, right)
}
