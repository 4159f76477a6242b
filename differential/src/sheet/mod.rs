//! Contract sheets and program sheets: checked record trees, and the
//! translations between sheets and the Rust's `ast::Contract` and
//! `ir::IrProgram`.

pub mod contract_read;
pub mod contract_write;
pub mod fields;
pub mod kind;
pub mod layout;
pub mod limits;
pub mod parse;
pub mod program_read;
pub mod program_write;
pub mod writer;

/// The longest sheet, read or written.
pub const SHEET_LIMIT: usize = 32_768;
