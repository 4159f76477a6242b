//! The expected answers: the Rust's own, with the sheets, limits and numbers
//! that document 01 adds.

use std::collections::HashSet;
use std::fmt;

use crate::ast::Contract;
use crate::counting_lower::{self, Stop};
use crate::ir::lower::{self, LoweringError};
use crate::ir::verify::{self, VerifyError};
use crate::ir::{IrFunction, IrProgram, IrType};
use crate::names;
use crate::sema::SemanticAnalyzer;
use crate::sheet::parse::Tree;
use crate::sheet::{contract_read, kind, limits, parse, program_read, program_write, SHEET_LIMIT};

/// The answer to a sheet.
#[derive(Debug, Clone, PartialEq, Eq)]
pub enum Answer {
    /// The finished program sheet of a lowering; no bytes for a verified one.
    Accepted(Vec<u8>),
    Refused {
        number: u16,
        details: Vec<u32>,
    },
}

impl Answer {
    /// The number of document 01's table, 0 for acceptance.
    pub fn number(&self) -> u16 {
        match self {
            Answer::Accepted(_) => 0,
            Answer::Refused { number, .. } => *number,
        }
    }
}

/// The answer as the one line that a program prints, without the line feed.
impl fmt::Display for Answer {
    fn fmt(&self, f: &mut fmt::Formatter<'_>) -> fmt::Result {
        match self {
            Answer::Accepted(bytes) => {
                write!(f, "OK")?;
                bytes.iter().try_for_each(|byte| write!(f, " {byte:02X}"))
            }
            Answer::Refused { number, details } => {
                write!(f, "{number}")?;
                details.iter().try_for_each(|detail| write!(f, " {detail}"))
            }
        }
    }
}

pub fn refused<Detail: Into<u32>>(
    number: u16,
    details: impl IntoIterator<Item = Detail>,
) -> Answer {
    Answer::Refused {
        number,
        details: details.into_iter().map(Into::into).collect(),
    }
}

fn refused_alone(number: u16) -> Answer {
    refused::<u32>(number, [])
}

/// The records of a contract sheet, unless 1, 3 or 4 comes before the walk.
pub fn checked(sheet: &[u8]) -> Result<Tree<'_>, Answer> {
    if sheet.len() > SHEET_LIMIT {
        return Err(refused_alone(1));
    }
    let tree = parse::parse(sheet, kind::CONTRACT);
    if let Some(place) = tree.malformed {
        return Err(refused(3, [place as u32]));
    }
    match limits::exceeded(&tree) {
        Some(place) => Err(refused(4, [place as u32])),
        None => Ok(tree),
    }
}

/// What lowering asks of a contract sheet before its walk.
pub fn check_answer(sheet: &[u8]) -> Answer {
    checked(sheet).map_or_else(|answer| answer, |_| Answer::Accepted(Vec::new()))
}

/// The answer to a contract sheet, with an output of `room` bytes.
pub fn lower_answer(sheet: &[u8], room: usize) -> Answer {
    let tree = match checked(sheet) {
        Ok(tree) => tree,
        Err(answer) => return answer,
    };
    match lower_contract(&contract_read::contract(&tree)) {
        Ok(finished) if finished.len() > room.min(SHEET_LIMIT) => refused_alone(31),
        Ok(finished) => Answer::Accepted(finished),
        Err(answer) => answer,
    }
}

/// Lowers by the Rust and by its counting copy, which must agree wherever the
/// copy does not stop at a full function.
fn lower_contract(contract: &Contract) -> Result<Vec<u8>, Answer> {
    let mut analyzer = SemanticAnalyzer::new();
    // Only the signatures that it registers are used.
    let _ = analyzer.analyze(contract);
    let counted = match counting_lower::lower_contract(contract, &analyzer) {
        Err(Stop::Full(function)) => return Err(refused(30, [function.0])),
        Err(Stop::Error(error)) => Err(error),
        Ok(program) => Ok(program_write::program(&program)),
    };
    let plain =
        lower::lower_contract(contract, &analyzer).map(|program| program_write::program(&program));
    assert_eq!(counted, plain, "the counting copy differs from the Rust");
    plain.map_err(lowering_refusal)
}

fn lowering_refusal(error: LoweringError) -> Answer {
    match error {
        LoweringError::UndefinedVariable(name) => refused(10, [names::number(&name)]),
        LoweringError::UndefinedFunction(name) => refused(11, [names::number(&name)]),
        LoweringError::UnresolvedType(name) => refused(12, [names::number(&name)]),
        LoweringError::UnsupportedNode(message) => unsupported(&message),
        never => unreachable!("the Rust never raises {never:?}"),
    }
}

/// The beginnings of the messages by which the Rust tells its unsupported
/// nodes apart; that of 14 also carries two names.
const MESSAGES: [(&str, u16); 7] = [
    ("field access on non-struct type", 13),
    ("struct literal — ", 15),
    ("MappingRead — ", 16),
    ("MappingWrite — ", 17),
    ("void expression used as value", 18),
    ("poseidon() ", 19),
    ("verify_merkle_proof — ", 20),
];

fn unsupported(message: &str) -> Answer {
    for (beginning, number) in MESSAGES {
        if message.starts_with(beginning) {
            return refused_alone(number);
        }
    }
    let names = message.strip_prefix("struct ");
    let (structure, field) = names
        .and_then(|names| names.split_once(" has no field "))
        .unwrap_or_else(|| panic!("an unknown message of the Rust: {message}"));
    refused(14, [names::number(structure), names::number(field)])
}

/// The answer to a program sheet.
pub fn verify_answer(sheet: &[u8]) -> Answer {
    if sheet.len() > SHEET_LIMIT {
        return refused_alone(1);
    }
    let tree = parse::parse(sheet, kind::PROGRAM);
    if let Some(place) = tree.malformed {
        return refused(40, [place as u32]);
    }
    match verify_program(&program_read::program(&tree)) {
        Ok(()) => Answer::Accepted(Vec::new()),
        Err(answer) => answer,
    }
}

/// Verifies by the Rust, unless that would panic: then the functions before
/// the one with the unexpected result are verified, one by one.
fn verify_program(program: &IrProgram) -> Result<(), Answer> {
    let unexpected = program
        .functions
        .iter()
        .enumerate()
        .find_map(|(position, function)| Some((position, unexpected_result(function)?)));
    let Some((position, kind)) = unexpected else {
        return verify::verify_program(program).map_err(verify_refusal);
    };
    let ids: HashSet<_> = program.functions.iter().map(|f| f.id).collect();
    for function in &program.functions[..position] {
        verify::verify_function(function, &ids).map_err(verify_refusal)?;
    }
    let name = names::number(&program.functions[position].name);
    Err(refused(50, [name, kind]))
}

/// The kind of the first instruction that has a result id and gives none,
/// unless a value is defined twice before it: where the Rust's scan of the
/// definitions panics.
fn unexpected_result(function: &IrFunction) -> Option<u16> {
    let mut defined = HashSet::new();
    for (value, _) in &function.params {
        if !defined.insert(*value) {
            return None;
        }
    }
    for node in function.blocks.iter().flat_map(|block| &block.instrs) {
        let Some(value) = node.result else { continue };
        if node.instr.result_type().is_none() {
            return Some(program_write::instruction_kind(&node.instr));
        }
        if !defined.insert(value) {
            return None;
        }
    }
    None
}

fn type_details(ty: Option<&IrType>) -> [u32; 2] {
    match ty {
        Some(ty) => {
            let (tag, name) = program_write::type_numbers(ty);
            [tag.into(), name.into()]
        }
        None => [names::ABSENT.into(), 0],
    }
}

fn verify_refusal(error: VerifyError) -> Answer {
    let (number, function, details) = match error {
        VerifyError::UndefinedValue { value, in_function } => (41, in_function, vec![value.0]),
        VerifyError::DuplicateValueDef { value, in_function } => (42, in_function, vec![value.0]),
        VerifyError::UndefinedBlock { block, in_function } => (43, in_function, vec![block.0]),
        VerifyError::MissingTerminator { block, in_function } => (44, in_function, vec![block.0]),
        VerifyError::ReturnTypeMismatch {
            expected,
            got,
            in_function,
        } => {
            let types = [type_details(Some(&expected)), type_details(got.as_ref())];
            (45, in_function, types.concat())
        }
        VerifyError::BranchConditionNotBool {
            value,
            actual_ty,
            in_function,
        } => {
            let [tag, name] = type_details(Some(&actual_ty));
            (46, in_function, vec![value.0, tag, name])
        }
        VerifyError::OperandTypeMismatch {
            lhs_ty,
            rhs_ty,
            in_function,
        } => {
            let types = [type_details(Some(&lhs_ty)), type_details(Some(&rhs_ty))];
            (47, in_function, types.concat())
        }
        VerifyError::UndefinedLocal { local, in_function } => (48, in_function, vec![local.0]),
        VerifyError::UndefinedFunction {
            function,
            in_caller,
        } => (49, in_caller, vec![function.0]),
    };
    let name = u32::from(names::number(&function));
    refused(number, std::iter::once(name).chain(details))
}
