//! Record kinds.

pub const CONTRACT: u16 = 1;
pub const STORAGE: u16 = 2;
pub const STRUCT: u16 = 3;
pub const FUNCTION: u16 = 4;
pub const BLOCK: u16 = 5;
pub const LITERAL_FIELD: u16 = 6;

pub const LET: u16 = 10;
pub const CONSTRAIN: u16 = 11;
pub const ASSIGN: u16 = 12;
pub const STORAGE_WRITE: u16 = 13;
pub const MAPPING_WRITE: u16 = 14;
pub const IF: u16 = 15;
pub const WHILE: u16 = 16;
pub const FOR: u16 = 17;
pub const RETURN: u16 = 18;
pub const EMIT: u16 = 19;
pub const EXPR: u16 = 20;

pub const INT: u16 = 30;
pub const IDENT: u16 = 31;
pub const STORAGE_READ: u16 = 32;
pub const MAPPING_READ: u16 = 33;
pub const FIELD_ACCESS: u16 = 34;
pub const STRUCT_LITERAL: u16 = 35;
pub const BINARY: u16 = 36;
pub const CALL: u16 = 37;

pub const PROGRAM: u16 = 50;
pub const IR_FUNCTION: u16 = 51;
pub const FUNCTION_NAME: u16 = 52;
pub const IR_BLOCK: u16 = 53;

// Instructions, in the order of `ir::Instruction`.
pub const CONST: u16 = 60;
pub const ADD: u16 = 61;
pub const SUB: u16 = 62;
pub const MUL: u16 = 63;
pub const DIV: u16 = 64;
pub const IR_EQ: u16 = 65;
pub const IR_NE: u16 = 66;
pub const LT: u16 = 67;
pub const LE: u16 = 68;
pub const GT: u16 = 69;
pub const GE: u16 = 70;
pub const LOAD: u16 = 71;
pub const STORE: u16 = 72;
pub const STATE_READ: u16 = 73;
pub const STATE_WRITE: u16 = 74;
pub const READ_LOCAL: u16 = 75;
pub const WRITE_LOCAL: u16 = 76;
pub const IR_CALL: u16 = 77;
pub const ASSERT: u16 = 78;
pub const POSEIDON: u16 = 79;
pub const IR_EMIT: u16 = 80;
pub const CONTEXT_READ: u16 = 81;

pub const JUMP: u16 = 90;
pub const BRANCH: u16 = 91;
pub const IR_RETURN: u16 = 92;
pub const UNREACHABLE: u16 = 93;
