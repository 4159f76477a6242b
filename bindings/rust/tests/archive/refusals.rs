//! Every refusal of lowering and of verifying: its number, its details in
//! order, its words, and every byte of the output.

use crate::sheets::*;
use malovuneth::Refusal::*;
use malovuneth::{lower, lower_to_vec, verify, Refusal};
use malovuneth::{BlockId, FunctionId, LocalId, Name, Type, ValueId, MOST_BYTES};

const FORM: &str = "lowest byte where a record should start, or surplus begins, and no record \
    with allowed kind, fitting length and valid fields starts";

/// A sheet, the refusal, and what it prints.
pub type Row = (Vec<u8>, Refusal, String);

fn row(sheet: Vec<u8>, refusal: Refusal, words: &str) -> Row {
    (sheet, refusal, words.to_string())
}

/// Rows for the sheets that are refused before the walk.
fn sheet_rows() -> Vec<Row> {
    let many: Vec<u16> = (20..20 + 17).flat_map(|name| [name, 1]).collect();
    let fields = [vec![11, 65_535, 0, 17], many].concat();
    let limit = "first record that is the 65th function, 65th struct, 257th storage field, \
        a struct of over 64 fields, a function of over 16 parameters, a Call or Emit of over 16 \
        arguments, or has depth 41: place 8";
    vec![
        row(
            vec![0; MOST_BYTES + 1],
            SheetTooLong,
            "sheet over 32,768 bytes",
        ),
        row(
            vec![],
            ContractForm { place: 0 },
            &format!("{FORM}: place 0"),
        ),
        row(
            [contract(&[]), vec![0]].concat(),
            ContractForm { place: 8 },
            &format!("{FORM}: place 8"),
        ),
        row(
            contract(&[record(4, &fields, &[])]),
            ContractLimit { place: 8 },
            limit,
        ),
    ]
}

/// Rows for names that are not declared: 10 to 14.
fn name_rows() -> Vec<Row> {
    // Function 11 of parameter 13, whose type is struct 30.
    let reads = |field| {
        let statement = record(20, &[], &[access(field, ident(13))]);
        record(4, &[11, 65_535, 0, 1, 13, 30], &[statement])
    };
    let structure = record(3, &[30, 31, 1], &[]);
    vec![
        row(
            body(&[record(18, &[], &[ident(20)])]),
            UndefinedVariable { name: Name(20) },
            "UndefinedVariable: name 20",
        ),
        row(
            expression(call(12, &[])),
            UndefinedFunctionName { name: Name(12) },
            "UndefinedFunction: name 12",
        ),
        row(
            contract(&[reads(31)]),
            UnresolvedType {
                structure: Name(30),
            },
            "UnresolvedType: struct 30",
        ),
        row(
            expression(access(31, int(1))),
            FieldOfNonStruct,
            "field access on non-struct",
        ),
        row(
            contract(&[structure, reads(32)]),
            NoSuchField {
                structure: Name(30),
                field: Name(32),
            },
            "no such field: struct 30, field 32",
        ),
    ]
}

/// Rows for what is not lowered, and for what grows too long: 15 to 30.
fn form_rows() -> Vec<Row> {
    let mapping_write = record(14, &[20], &[int(1), int(2)]);
    let lets = vec![let_(20, int(1)); 257];
    vec![
        row(
            expression(record(35, &[30], &[])),
            StructLiteral,
            "struct literal",
        ),
        row(
            expression(record(33, &[20], &[int(1)])),
            MappingRead,
            "MappingRead",
        ),
        row(body(&[mapping_write]), MappingWrite, "MappingWrite"),
        row(
            body(&[let_(20, call(11, &[]))]),
            VoidAsValue,
            "void expression used as value",
        ),
        row(
            expression(call(5, &[int(1)])),
            PoseidonArguments,
            "poseidon not with 2 arguments",
        ),
        row(expression(call(6, &[])), MerkleProof, "verify_merkle_proof"),
        row(
            contract(&[function(12, &[]), function(11, &lets)]),
            TooManyBlocksOrLocals { position: 1 },
            "a function's 257th block or 257th local would be made: function position 1",
        ),
    ]
}

/// 750 sums of two numbers: the contract has 31.5 kB, the program is longer.
fn long_row() -> Row {
    let sum = record(36, &[0], &[int(1), int(2)]);
    let sheet = body(&vec![record(20, &[], &[sum]); 750]);
    assert!(sheet.len() <= MOST_BYTES);
    row(
        sheet,
        ProgramTooLong,
        "finished sheet over 32,768 or output length",
    )
}

/// Rows for ids: 41 to 44 and 48 to 50.
fn id_rows() -> Vec<Row> {
    let function = Name(11);
    let (value, block_7) = (ValueId(9), BlockId(7));
    let assertion = record(78, &[3, 9], &[]);
    vec![
        row(
            program(0, &[block(0, &[return_(9)])]),
            UndefinedValue { function, value },
            "function 11: UndefinedValue: id 9",
        ),
        row(
            instructions(&[constant(9, 0), constant(9, 0)]),
            DuplicateValueDef { function, value },
            "function 11: DuplicateValueDef: id 9",
        ),
        row(
            program(4, &[block(0, &[record(90, &[7], &[])])]),
            UndefinedBlock {
                function,
                block: block_7,
            },
            "function 11: UndefinedBlock: id 7",
        ),
        row(
            program(4, &[block(7, &[])]),
            MissingTerminator {
                function,
                block: block_7,
            },
            "function 11: MissingTerminator: id 7",
        ),
        row(
            instructions(&[record(75, &[0, 6, 0, 0], &[])]),
            UndefinedLocal {
                function,
                local: LocalId(6),
            },
            "function 11: UndefinedLocal: id 6",
        ),
        row(
            instructions(&[record(77, &[65_535, 5, 4, 0], &[])]),
            UndefinedFunctionId {
                function,
                called: FunctionId(5),
            },
            "function 11: UndefinedFunction: id 5",
        ),
        row(
            instructions(&[constant(9, 1), assertion]),
            ResultOnNone { function, kind: 78 },
            "function 11: result id on an instruction that gives none: kind 78",
        ),
    ]
}

/// Rows for types: 45 to 47.
fn type_rows() -> Vec<Row> {
    let function = Name(11);
    let returning = |got| ReturnTypeMismatch {
        function,
        expected: Type::U64,
        got,
    };
    let condition = record(91, &[9, 0, 0], &[]);
    let sum = record(61, &[2, 0, 0, 8, 9], &[]);
    vec![
        row(
            program(0, &[block(0, &[return_(65_535)])]),
            returning(None),
            "function 11: ReturnTypeMismatch: expected U64, got none",
        ),
        row(
            program(0, &[block(0, &[constant(9, 1), return_(9)])]),
            returning(Some(Type::Bool)),
            "function 11: ReturnTypeMismatch: expected U64, got Bool",
        ),
        row(
            program(4, &[block(0, &[constant(9, 2), condition])]),
            BranchConditionNotBool {
                function,
                value: ValueId(9),
                ty: Type::Field,
            },
            "function 11: BranchConditionNotBool: id 9, type Field",
        ),
        row(
            instructions(&[constant(8, 0), constant(9, 1), sum]),
            OperandTypeMismatch {
                function,
                left: Type::U64,
                right: Type::Bool,
            },
            "function 11: OperandTypeMismatch: types U64, Bool",
        ),
    ]
}

pub fn lowering_rows() -> Vec<Row> {
    [sheet_rows(), name_rows(), form_rows(), vec![long_row()]].concat()
}

pub fn verifying_rows() -> Vec<Row> {
    let rows = vec![
        row(
            vec![0; MOST_BYTES + 1],
            SheetTooLong,
            "sheet over 32,768 bytes",
        ),
        row(
            vec![],
            ProgramForm { place: 0 },
            &format!("program sheet, {FORM}: place 0"),
        ),
        row(
            [instructions(&[]), vec![0]].concat(),
            ProgramForm { place: 40 },
            &format!("program sheet, {FORM}: place 40"),
        ),
    ];
    [rows, id_rows(), type_rows()].concat()
}

/// The numbers of the rows, each once, in order.
fn numbers_of(rows: &[Row]) -> Vec<u16> {
    let mut numbers: Vec<u16> = rows
        .iter()
        .map(|(_, refusal, _)| refusal.number())
        .collect();
    numbers.sort_unstable();
    numbers.dedup();
    numbers
}

#[test]
fn every_refusal_of_lowering() {
    let rows = lowering_rows();
    let all = [vec![1, 3, 4], (10..=20).collect(), vec![30, 31]].concat();
    assert_eq!(numbers_of(&rows), all);
    for (sheet, refusal, words) in rows {
        for room in [0, 5, 40_000] {
            let mut out = vec![0xA5; room];
            assert_eq!(lower(&sheet, &mut out), Err(refusal));
            assert_eq!(out, vec![0; room]);
        }
        assert_eq!(lower_to_vec(&sheet), Err(refusal));
        assert_eq!(refusal.to_string(), words);
    }
}

#[test]
fn every_refusal_of_verifying() {
    let rows = verifying_rows();
    let all = [vec![1], (40..=50).collect()].concat();
    assert_eq!(numbers_of(&rows), all);
    for (sheet, refusal, words) in rows {
        assert_eq!(verify(&sheet), Err(refusal));
        assert_eq!(refusal.to_string(), words);
    }
}
