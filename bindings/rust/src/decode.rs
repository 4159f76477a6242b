//! The archive's numbers as answers. Numbers that docs/FORMAT.md does not have,
//! or has with other details, are no answer.

#![forbid(unsafe_code)]

use crate::ffi::Numbers;
use crate::refusal::{BlockId, FunctionId, LocalId, Name, Refusal, Type, ValueId};

/// The length of the program sheet that was lowered.
pub(crate) fn lowered(numbers: Numbers) -> Result<usize, Refusal> {
    match numbers {
        [0, length, 0, 0, 0, 0] => Ok(length),
        _ => Err(lowering(numbers).unwrap_or_else(|| no_answer(numbers))),
    }
}

pub(crate) fn verified(numbers: Numbers) -> Result<(), Refusal> {
    match numbers {
        [0, 0, 0, 0, 0, 0] => Ok(()),
        _ => Err(verifying(numbers).unwrap_or_else(|| no_answer(numbers))),
    }
}

fn no_answer(numbers: Numbers) -> ! {
    panic!("the linked libmalovuneth.a is not this version's: {numbers:?} is no answer")
}

fn lowering(numbers: Numbers) -> Option<Refusal> {
    Some(match numbers {
        [1, 0, 0, 0, 0, 0] => Refusal::SheetTooLong,
        [3, place, 0, 0, 0, 0] => Refusal::ContractForm { place },
        [4, place, 0, 0, 0, 0] => Refusal::ContractLimit { place },
        [10, n, 0, 0, 0, 0] => Refusal::UndefinedVariable { name: name(n)? },
        [11, n, 0, 0, 0, 0] => Refusal::UndefinedFunctionName { name: name(n)? },
        [12, s, 0, 0, 0, 0] => Refusal::UnresolvedType {
            structure: name(s)?,
        },
        [13, 0, 0, 0, 0, 0] => Refusal::FieldOfNonStruct,
        [14, s, f, 0, 0, 0] => Refusal::NoSuchField {
            structure: name(s)?,
            field: name(f)?,
        },
        [15, 0, 0, 0, 0, 0] => Refusal::StructLiteral,
        [16, 0, 0, 0, 0, 0] => Refusal::MappingRead,
        [17, 0, 0, 0, 0, 0] => Refusal::MappingWrite,
        [18, 0, 0, 0, 0, 0] => Refusal::VoidAsValue,
        [19, 0, 0, 0, 0, 0] => Refusal::PoseidonArguments,
        [20, 0, 0, 0, 0, 0] => Refusal::MerkleProof,
        [30, position, 0, 0, 0, 0] => Refusal::TooManyBlocksOrLocals { position },
        [31, 0, 0, 0, 0, 0] => Refusal::ProgramTooLong,
        _ => return None,
    })
}

fn verifying(numbers: Numbers) -> Option<Refusal> {
    match numbers {
        [1, 0, 0, 0, 0, 0] => Some(Refusal::SheetTooLong),
        [40, place, 0, 0, 0, 0] => Some(Refusal::ProgramForm { place }),
        // 41 to 50 begin with the function's name.
        [number, function, details @ ..] => {
            let function = name(function)?;
            of_id(function, number, details).or_else(|| of_types(function, number, details))
        }
    }
}

/// 41 to 44 and 48 to 50.
fn of_id(function: Name, number: usize, details: [usize; 4]) -> Option<Refusal> {
    let [detail, 0, 0, 0] = details else {
        return None;
    };
    let id = id(detail)?;
    let (value, block) = (ValueId(id), BlockId(id));
    Some(match number {
        41 => Refusal::UndefinedValue { function, value },
        42 => Refusal::DuplicateValueDef { function, value },
        43 => Refusal::UndefinedBlock { function, block },
        44 => Refusal::MissingTerminator { function, block },
        48 => Refusal::UndefinedLocal {
            function,
            local: LocalId(id),
        },
        49 => Refusal::UndefinedFunctionId {
            function,
            called: FunctionId(id),
        },
        50 if (60..=81).contains(&id) => Refusal::ResultOnNone { function, kind: id },
        _ => return None,
    })
}

/// 45 to 47.
fn of_types(function: Name, number: usize, details: [usize; 4]) -> Option<Refusal> {
    Some(match (number, details) {
        (45, [tag, n, got_tag, got_n]) => Refusal::ReturnTypeMismatch {
            function,
            expected: ty(tag, n)?,
            got: match (got_tag, got_n) {
                (65_535, 0) => None,
                _ => Some(ty(got_tag, got_n)?),
            },
        },
        (46, [v, tag, n, 0]) => Refusal::BranchConditionNotBool {
            function,
            value: ValueId(id(v)?),
            ty: ty(tag, n)?,
        },
        (47, [left, left_n, right, right_n]) => Refusal::OperandTypeMismatch {
            function,
            left: ty(left, left_n)?,
            right: ty(right, right_n)?,
        },
        _ => return None,
    })
}

/// Names and ids are 0 to 65,534.
fn id(number: usize) -> Option<u16> {
    u16::try_from(number).ok().filter(|&id| id != u16::MAX)
}

fn name(number: usize) -> Option<Name> {
    id(number).map(Name)
}

/// A type by its tag and its name, which is 0 unless it is a struct's.
fn ty(tag: usize, n: usize) -> Option<Type> {
    match (tag, n) {
        (0, 0) => Some(Type::U64),
        (1, 0) => Some(Type::Bool),
        (2, 0) => Some(Type::Field),
        (3, _) => name(n).map(Type::Struct),
        (4, 0) => Some(Type::Void),
        _ => None,
    }
}

#[cfg(test)]
mod tests {
    use super::*;

    /// Numbers that are no answer: of neither operation, of the other one, with
    /// a number too many, out of their range.
    #[test]
    fn no_answers() {
        for numbers in [[2, 0], [5, 0], [21, 0], [32, 0], [41, 0], [51, 0], [99, 0]] {
            let [number, detail] = numbers;
            assert_eq!(lowering([number, detail, 0, 0, 0, 0]), None);
        }
        for numbers in [[2, 0], [3, 0], [10, 7], [31, 0], [39, 0], [51, 0]] {
            let [number, detail] = numbers;
            assert_eq!(verifying([number, detail, 0, 0, 0, 0]), None);
        }
        assert_eq!(lowering([1, 1, 0, 0, 0, 0]), None);
        assert_eq!(lowering([3, 5, 0, 0, 0, 1]), None);
        assert_eq!(lowering([10, 65_535, 0, 0, 0, 0]), None);
        assert_eq!(lowering([10, 65_536, 0, 0, 0, 0]), None);
        assert_eq!(verifying([41, 65_535, 0, 0, 0, 0]), None);
        assert_eq!(verifying([45, 11, 0, 0, 65_535, 1]), None);
        assert_eq!(verifying([46, 11, 0, 5, 0, 0]), None);
        assert_eq!(verifying([47, 11, 0, 1, 0, 0]), None);
        assert_eq!(verifying([50, 11, 82, 0, 0, 0]), None);
    }

    #[test]
    #[should_panic(expected = "is no answer")]
    fn surplus_on_acceptance() {
        let _ = verified([0, 6, 0, 0, 0, 0]);
    }

    #[test]
    #[should_panic(expected = "is no answer")]
    fn surplus_on_lowering() {
        let _ = lowered([0, 6, 1, 0, 0, 0]);
    }

    #[test]
    fn types() {
        let function = Name(11);
        let expected = Type::Struct(Name(65_534));
        let refusal = |got| {
            Some(Refusal::ReturnTypeMismatch {
                function,
                expected,
                got,
            })
        };
        assert_eq!(verifying([45, 11, 3, 65_534, 65_535, 0]), refusal(None));
        let all = [
            Type::U64,
            Type::Bool,
            Type::Field,
            Type::Struct(Name(0)),
            Type::Void,
        ];
        for (tag, got) in all.into_iter().enumerate() {
            assert_eq!(verifying([45, 11, 3, 65_534, tag, 0]), refusal(Some(got)));
        }
    }
}
