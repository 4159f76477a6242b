//! Refusals, by the table of numbers in docs/FORMAT.md.

#![forbid(unsafe_code)]

use core::error::Error;
use core::fmt::{self, Display, Formatter};

/// Structs of one number, which print as it.
macro_rules! numbers {
    ($($(#[$doc:meta])* $name:ident;)*) => {$(
        $(#[$doc])*
        #[derive(Debug, Clone, Copy, PartialEq, Eq, Hash)]
        pub struct $name(pub u16);

        impl Display for $name {
            fn fmt(&self, f: &mut Formatter<'_>) -> fmt::Result {
                self.0.fmt(f)
            }
        }
    )*};
}

numbers! {
    /// A name of a sheet.
    Name;
    /// The id of a value of a function.
    ValueId;
    /// The id of a block of a function.
    BlockId;
    /// The id of a function of a program.
    FunctionId;
    /// The id of a local of a function.
    LocalId;
}

/// A type of a program.
#[derive(Debug, Clone, Copy, PartialEq, Eq, Hash)]
pub enum Type {
    /// Tag 0.
    U64,
    /// Tag 1.
    Bool,
    /// Tag 2.
    Field,
    /// Tag 3: the struct of a name.
    Struct(Name),
    /// Tag 4.
    Void,
}

impl Display for Type {
    fn fmt(&self, f: &mut Formatter<'_>) -> fmt::Result {
        match self {
            Type::U64 => write!(f, "U64"),
            Type::Bool => write!(f, "Bool"),
            Type::Field => write!(f, "Field"),
            Type::Struct(name) => write!(f, "Struct {name}"),
            Type::Void => write!(f, "Void"),
        }
    }
}

/// Why a sheet was refused: a variant for each number, with its details in
/// their order.
///
/// Lowering gives 1, 3, 4, 10 to 20, 30 and 31, verifying 1 and 40 to 50. Later
/// versions have further numbers, and so further variants.
#[derive(Debug, Clone, Copy, PartialEq, Eq, Hash)]
#[non_exhaustive]
pub enum Refusal {
    /// 1: sheet over 32,768 bytes.
    SheetTooLong,
    /// 3: lowest byte where a record should start, or surplus begins, and no
    /// record with allowed kind, fitting length and valid fields starts.
    ContractForm {
        /// The byte of the sheet, from 0.
        place: usize,
    },
    /// 4: first record that is the 65th function, 65th struct, 257th storage
    /// field, a struct of over 64 fields, a function of over 16 parameters, a
    /// Call or Emit of over 16 arguments, or has depth 41.
    ContractLimit {
        /// The byte of the sheet, from 0.
        place: usize,
    },
    /// 10: a variable or storage field that is not declared.
    UndefinedVariable {
        /// Its name.
        name: Name,
    },
    /// 11: a function that is not declared.
    UndefinedFunctionName {
        /// Its name.
        name: Name,
    },
    /// 12: a struct that is not declared.
    UnresolvedType {
        /// Its name.
        structure: Name,
    },
    /// 13: field access on non-struct.
    FieldOfNonStruct,
    /// 14: no such field.
    NoSuchField {
        /// The struct.
        structure: Name,
        /// The field that it does not have.
        field: Name,
    },
    /// 15: struct literal.
    StructLiteral,
    /// 16: `m[1]`.
    MappingRead,
    /// 17: `m[1]=2`.
    MappingWrite,
    /// 18: void expression used as value.
    VoidAsValue,
    /// 19: poseidon not with 2 arguments.
    PoseidonArguments,
    /// 20: `verify_merkle_proof`.
    MerkleProof,
    /// 30: a function's 257th block or 257th local would be made.
    TooManyBlocksOrLocals {
        /// The function's position, from 0.
        position: usize,
    },
    /// 31: finished sheet over 32,768 or output length.
    ProgramTooLong,
    /// 40: program sheet, as 3.
    ProgramForm {
        /// The byte of the sheet, from 0.
        place: usize,
    },
    /// 41: a value that is not defined.
    UndefinedValue {
        /// The name of the function that is verified.
        function: Name,
        /// Its id.
        value: ValueId,
    },
    /// 42: a value that is defined twice.
    DuplicateValueDef {
        /// The name of the function that is verified.
        function: Name,
        /// Its id.
        value: ValueId,
    },
    /// 43: a target that is no block of the function.
    UndefinedBlock {
        /// The name of the function that is verified.
        function: Name,
        /// Its id.
        block: BlockId,
    },
    /// 44: a block without a terminator.
    MissingTerminator {
        /// The name of the function that is verified.
        function: Name,
        /// Its id.
        block: BlockId,
    },
    /// 45: a Return of another type than the function's.
    ReturnTypeMismatch {
        /// The name of the function that is verified.
        function: Name,
        /// The function's return type.
        expected: Type,
        /// The type of what is returned, if anything is.
        got: Option<Type>,
    },
    /// 46: a condition that is not Bool.
    BranchConditionNotBool {
        /// The name of the function that is verified.
        function: Name,
        /// The condition.
        value: ValueId,
        /// Its type.
        ty: Type,
    },
    /// 47: operands that are not both of the instruction's own type.
    OperandTypeMismatch {
        /// The name of the function that is verified.
        function: Name,
        /// The left operand's type.
        left: Type,
        /// The right operand's type.
        right: Type,
    },
    /// 48: a local that the function does not have.
    UndefinedLocal {
        /// The name of the function that is verified.
        function: Name,
        /// Its id.
        local: LocalId,
    },
    /// 49: a call of a function that the program does not have.
    UndefinedFunctionId {
        /// The name of the function that is verified.
        function: Name,
        /// Its id.
        called: FunctionId,
    },
    /// 50: result id on an instruction that gives none.
    ResultOnNone {
        /// The name of the function that is verified.
        function: Name,
        /// The instruction's kind, 60 to 81.
        kind: u16,
    },
}

impl Refusal {
    /// Document 01's number.
    #[must_use]
    pub fn number(&self) -> u16 {
        match self {
            Refusal::SheetTooLong => 1,
            Refusal::ContractForm { .. } => 3,
            Refusal::ContractLimit { .. } => 4,
            Refusal::UndefinedVariable { .. } => 10,
            Refusal::UndefinedFunctionName { .. } => 11,
            Refusal::UnresolvedType { .. } => 12,
            Refusal::FieldOfNonStruct => 13,
            Refusal::NoSuchField { .. } => 14,
            Refusal::StructLiteral => 15,
            Refusal::MappingRead => 16,
            Refusal::MappingWrite => 17,
            Refusal::VoidAsValue => 18,
            Refusal::PoseidonArguments => 19,
            Refusal::MerkleProof => 20,
            Refusal::TooManyBlocksOrLocals { .. } => 30,
            Refusal::ProgramTooLong => 31,
            Refusal::ProgramForm { .. } => 40,
            Refusal::UndefinedValue { .. } => 41,
            Refusal::DuplicateValueDef { .. } => 42,
            Refusal::UndefinedBlock { .. } => 43,
            Refusal::MissingTerminator { .. } => 44,
            Refusal::ReturnTypeMismatch { .. } => 45,
            Refusal::BranchConditionNotBool { .. } => 46,
            Refusal::OperandTypeMismatch { .. } => 47,
            Refusal::UndefinedLocal { .. } => 48,
            Refusal::UndefinedFunctionId { .. } => 49,
            Refusal::ResultOnNone { .. } => 50,
        }
    }

    /// Document 01's words, without the details.
    #[must_use]
    pub fn words(&self) -> &'static str {
        match self {
            Refusal::SheetTooLong => "sheet over 32,768 bytes",
            Refusal::ContractForm { .. } => FORM,
            Refusal::ContractLimit { .. } => LIMIT,
            Refusal::UndefinedVariable { .. } => "UndefinedVariable",
            Refusal::UndefinedFunctionName { .. } => "UndefinedFunction",
            Refusal::UnresolvedType { .. } => "UnresolvedType",
            Refusal::FieldOfNonStruct => "field access on non-struct",
            Refusal::NoSuchField { .. } => "no such field",
            Refusal::StructLiteral => "struct literal",
            Refusal::MappingRead => "MappingRead",
            Refusal::MappingWrite => "MappingWrite",
            Refusal::VoidAsValue => "void expression used as value",
            Refusal::PoseidonArguments => "poseidon not with 2 arguments",
            Refusal::MerkleProof => "verify_merkle_proof",
            Refusal::TooManyBlocksOrLocals { .. } => MADE,
            Refusal::ProgramTooLong => "finished sheet over 32,768 or output length",
            Refusal::ProgramForm { .. } => PROGRAM_FORM,
            Refusal::UndefinedValue { .. } => "UndefinedValue",
            Refusal::DuplicateValueDef { .. } => "DuplicateValueDef",
            Refusal::UndefinedBlock { .. } => "UndefinedBlock",
            Refusal::MissingTerminator { .. } => "MissingTerminator",
            Refusal::ReturnTypeMismatch { .. } => "ReturnTypeMismatch",
            Refusal::BranchConditionNotBool { .. } => "BranchConditionNotBool",
            Refusal::OperandTypeMismatch { .. } => "OperandTypeMismatch",
            Refusal::UndefinedLocal { .. } => "UndefinedLocal",
            Refusal::UndefinedFunctionId { .. } => "UndefinedFunction",
            Refusal::ResultOnNone { .. } => "result id on an instruction that gives none",
        }
    }

    /// The function that a refusal of verifying was met in.
    #[must_use]
    pub fn function(&self) -> Option<Name> {
        match *self {
            Refusal::UndefinedValue { function, .. }
            | Refusal::DuplicateValueDef { function, .. }
            | Refusal::UndefinedBlock { function, .. }
            | Refusal::MissingTerminator { function, .. }
            | Refusal::ReturnTypeMismatch { function, .. }
            | Refusal::BranchConditionNotBool { function, .. }
            | Refusal::OperandTypeMismatch { function, .. }
            | Refusal::UndefinedLocal { function, .. }
            | Refusal::UndefinedFunctionId { function, .. }
            | Refusal::ResultOnNone { function, .. } => Some(function),
            _ => None,
        }
    }

    /// The details behind the function's name.
    fn write_details(&self, f: &mut Formatter<'_>) -> fmt::Result {
        match *self {
            Refusal::ContractForm { place }
            | Refusal::ContractLimit { place }
            | Refusal::ProgramForm { place } => write!(f, ": place {place}"),
            Refusal::UndefinedVariable { name } | Refusal::UndefinedFunctionName { name } => {
                write!(f, ": name {name}")
            }
            Refusal::UnresolvedType { structure } => write!(f, ": struct {structure}"),
            Refusal::NoSuchField { structure, field } => {
                write!(f, ": struct {structure}, field {field}")
            }
            Refusal::TooManyBlocksOrLocals { position } => {
                write!(f, ": function position {position}")
            }
            Refusal::UndefinedValue { value, .. } | Refusal::DuplicateValueDef { value, .. } => {
                write!(f, ": id {value}")
            }
            Refusal::UndefinedBlock { block, .. } | Refusal::MissingTerminator { block, .. } => {
                write!(f, ": id {block}")
            }
            Refusal::UndefinedLocal { local, .. } => write!(f, ": id {local}"),
            Refusal::UndefinedFunctionId { called, .. } => write!(f, ": id {called}"),
            Refusal::ReturnTypeMismatch { expected, got, .. } => match got {
                Some(got) => write!(f, ": expected {expected}, got {got}"),
                None => write!(f, ": expected {expected}, got none"),
            },
            Refusal::BranchConditionNotBool { value, ty, .. } => {
                write!(f, ": id {value}, type {ty}")
            }
            Refusal::OperandTypeMismatch { left, right, .. } => {
                write!(f, ": types {left}, {right}")
            }
            Refusal::ResultOnNone { kind, .. } => write!(f, ": kind {kind}"),
            _ => Ok(()),
        }
    }
}

const FORM: &str = "lowest byte where a record should start, or surplus begins, and no record \
    with allowed kind, fitting length and valid fields starts";
const PROGRAM_FORM: &str = "program sheet, lowest byte where a record should start, or surplus \
    begins, and no record with allowed kind, fitting length and valid fields starts";
const LIMIT: &str = "first record that is the 65th function, 65th struct, 257th storage field, \
    a struct of over 64 fields, a function of over 16 parameters, a Call or Emit of over 16 \
    arguments, or has depth 41";
const MADE: &str = "a function's 257th block or 257th local would be made";

/// The function, what the number is given for, the other details.
impl Display for Refusal {
    fn fmt(&self, f: &mut Formatter<'_>) -> fmt::Result {
        if let Some(function) = self.function() {
            write!(f, "function {function}: ")?;
        }
        f.write_str(self.words())?;
        self.write_details(f)
    }
}

impl Error for Refusal {}
