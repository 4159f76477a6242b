//! Differential test of a lowering and an IR verifier against the Rust they
//! were written after.
//!
//! `ast`, `sema` and `ir` are the Rust's own files, unchanged. They name each
//! other as `crate::ast`, `crate::sema` and `crate::CompileError`, so they are
//! modules of this crate's root.

#[allow(warnings, clippy::all)]
#[rustfmt::skip]
#[path = "budzkvm/ast.rs"]
pub mod ast;
#[allow(warnings, clippy::all)]
#[rustfmt::skip]
#[path = "budzkvm/ir/mod.rs"]
pub mod ir;
#[allow(warnings, clippy::all)]
#[rustfmt::skip]
#[path = "budzkvm/sema.rs"]
pub mod sema;

pub mod analysis;
pub mod archive;
pub mod bench;
pub mod build;
#[allow(warnings, clippy::all)]
#[rustfmt::skip]
pub mod counting_lower;
pub mod driver;
pub mod generate;
pub mod names;
pub mod oracle;
pub mod proof_sheets;
pub mod sheet;
pub mod shrink;
pub mod subject;

#[cfg(test)]
mod tests;

/// What `sema.rs` needs of the Rust's error type.
#[derive(Debug, Clone, PartialEq, Eq)]
pub enum CompileError {
    SemanticError(String),
}
