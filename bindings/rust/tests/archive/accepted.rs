//! What is accepted, with every byte of the output; outputs of every length;
//! calls from several threads.

use crate::sheets::*;
use malovuneth::{lower, lower_to_vec, verify, Refusal, Type, MOST_BYTES};

/// P1 of crates/definitions/specs/Rows.antt: a contract without functions.
const P1: [u8; 8] = [8, 0, 0, 0, 1, 0, 10, 0];
const P1_PROGRAM: [u8; 6] = [6, 0, 0, 0, 50, 0];

/// P2: a contract of one empty function.
const P2: [u8; 22] = [
    0x16, 0, 0, 0, 1, 0, 0x0A, 0, 0x0E, 0, 0, 0, 4, 0, 0x0B, 0, 0xFF, 0xFF, 0, 0, 0, 0,
];
const P2_PROGRAM: [u8; 50] = [
    0x32, 0, 0, 0, 0x32, 0, 0x22, 0, 0, 0, 0x33, 0, 0, 0, 0x0B, 0, 4, 0, 0, 0, 0, 0, 0, 0, 0x10, 0,
    0, 0, 0x35, 0, 0, 0, 8, 0, 0, 0, 0x5C, 0, 0xFF, 0xFF, 0x0A, 0, 0, 0, 0x34, 0, 0x0B, 0, 0, 0,
];

#[test]
fn proof_sheets() {
    assert_eq!(P1.to_vec(), contract(&[]));
    assert_eq!(P2.to_vec(), body(&[]));
    for (sheet, program) in [(&P1[..], &P1_PROGRAM[..]), (&P2, &P2_PROGRAM)] {
        assert_eq!(lower_to_vec(sheet), Ok(program.to_vec()));
        assert_eq!(verify(program), Ok(()));
    }
}

/// The sheet and then zeros, or zeros, in outputs of every length to past the
/// sheet's.
#[test]
fn outputs_of_every_length() {
    for room in (0..60).chain([MOST_BYTES, MOST_BYTES + 1, 100_000]) {
        let mut out = vec![0xA5; room];
        let answer = lower(&P2, &mut out).map(<[u8]>::to_vec);
        if room < P2_PROGRAM.len() {
            assert_eq!(answer, Err(Refusal::ProgramTooLong));
            assert_eq!(out, vec![0; room]);
        } else {
            assert_eq!(answer, Ok(P2_PROGRAM.to_vec()));
            let zeros = vec![0; room - P2_PROGRAM.len()];
            assert_eq!(out, [P2_PROGRAM.to_vec(), zeros].concat());
        }
    }
}

#[test]
fn nothing_lent() {
    let form = Err(Refusal::ContractForm { place: 0 });
    assert_eq!(lower(&[], &mut []), form);
    assert_eq!(lower(&P1, &mut []), Err(Refusal::ProgramTooLong));
    assert_eq!(verify(&[]), Err(Refusal::ProgramForm { place: 0 }));
}

/// What a refusal leaves can be used again, and an answer keeps no part of it.
#[test]
fn an_output_is_used_again() {
    let mut out = [0xA5; 64];
    assert!(lower(&[], &mut out).is_err());
    assert_eq!(lower(&P2, &mut out), Ok(&P2_PROGRAM[..]));
    assert_eq!(lower(&P1, &mut out), Ok(&P1_PROGRAM[..]));
    assert_eq!(out[..6], P1_PROGRAM);
    assert_eq!(out[6..], [0; 58]);
}

/// The longest sheet: a Return, and statements behind it that are skipped.
#[test]
fn the_longest_sheet() {
    let mut statements = vec![record(18, &[], &[])];
    statements.extend(vec![record(20, &[], &[int(1)]); 1_637]);
    let mut sheet = body(&statements);
    assert_eq!(sheet.len(), MOST_BYTES);
    assert_eq!(lower_to_vec(&sheet), Ok(P2_PROGRAM.to_vec()));
    sheet.push(0);
    assert_eq!(lower_to_vec(&sheet), Err(Refusal::SheetTooLong));
}

/// The deepest sheet takes the most stack: a thread's usual one is enough.
#[test]
fn the_deepest_sheet() {
    let levels = (MOST_BYTES - 36) / 8;
    let mut sheet = Vec::new();
    let mut start = |kind: u16, fields: &[u16]| {
        let length = u32::try_from(MOST_BYTES - 4 - sheet.len()).unwrap();
        sheet.extend(length.to_le_bytes());
        sheet.extend(numbers(&[kind]));
        sheet.extend(numbers(fields));
    };
    start(1, &[10]);
    start(4, &[11, 65_535, 0, 0]);
    start(20, &[]);
    (0..levels).for_each(|_| start(34, &[20]));
    start(31, &[20]);
    assert_eq!(sheet.len(), MOST_BYTES - 4);
    // The contract, the function and the statement, then 37 accesses are within.
    let place = 8 + 14 + 6 + 37 * 8;
    assert_eq!(lower_to_vec(&sheet), Err(Refusal::ContractLimit { place }));
}

#[test]
fn several_threads() {
    let contract = body(&[let_(20, record(36, &[4], &[int(1), int(1)]))]);
    let program = lower_to_vec(&contract).unwrap();
    std::thread::scope(|threads| {
        for _ in 0..8 {
            threads.spawn(|| {
                for _ in 0..1_000 {
                    let mut out = [0xA5; 400];
                    assert_eq!(lower(&contract, &mut out), Ok(&program[..]));
                    assert_eq!(verify(&program), Ok(()));
                }
            });
        }
    });
}

/// What was lowered is refused for types at most: `1 + (1 == 1)`.
#[test]
fn a_lowered_program_is_refused_for_types() {
    let equal = record(36, &[4], &[int(1), int(1)]);
    let program = lower_to_vec(&expression(record(36, &[0], &[int(1), equal]))).unwrap();
    let refusal = verify(&program).unwrap_err();
    let (left, right) = (Type::U64, Type::Bool);
    let function = malovuneth::Name(11);
    assert_eq!(
        refusal,
        Refusal::OperandTypeMismatch {
            function,
            left,
            right
        }
    );
    let error: Box<dyn std::error::Error> = refusal.into();
    assert!(error.to_string().starts_with("function 11: "));
}
