//! Sheets read back are the sheets written.

use crate::generate::{contract_of_all_kinds, lower_case, program_of_all_kinds, verify_case, Case};
use crate::names;
use crate::oracle::{lower_answer, verify_answer, Answer};
use crate::sheet::{
    contract_read, contract_write, kind, limits, parse, program_read, program_write, SHEET_LIMIT,
};

#[test]
fn every_name_number_has_its_own_text() {
    for number in 0..names::ABSENT {
        assert_eq!(names::number(&names::text(number)), number);
    }
}

#[test]
fn contracts_survive_the_round_trip() {
    for index in 0..2_000 {
        let Case { sheet, .. } = lower_case(7, index);
        let tree = parse::parse(&sheet, kind::CONTRACT);
        if tree.malformed.is_none() && limits::exceeded(&tree).is_none() {
            let contract = contract_read::contract(&tree);
            assert_eq!(contract_write::contract(&contract), sheet);
        }
    }
}

/// Function names are written from the functions, so that only programs that
/// came from a lowering are written back as they were.
#[test]
fn programs_survive_the_round_trip() {
    for index in 0..2_000 {
        let Case { sheet, room } = lower_case(8, index);
        if let Answer::Accepted(finished) = lower_answer(&sheet, room) {
            let tree = parse::parse(&finished, kind::PROGRAM);
            assert_eq!(tree.malformed, None);
            let program = program_read::program(&tree);
            assert_eq!(program_write::program(&program), finished);
        }
    }
}

/// A malformed place stays when bytes are added after the sheet, unless it is
/// the outermost record that does not fit.
#[test]
fn the_lowest_place_is_given() {
    for index in 0..2_000 {
        let contract = lower_case(9, index).sheet;
        let program = verify_case(9, index).sheet;
        for (mut sheet, root) in [(contract, kind::CONTRACT), (program, kind::PROGRAM)] {
            let place = parse::parse(&sheet, root).malformed;
            sheet.push(index as u8);
            let later = parse::parse(&sheet, root).malformed;
            match place {
                Some(0) => (),
                Some(place) => assert_eq!(later, Some(place)),
                None => assert_eq!(later, Some(sheet.len() - 1)),
            }
        }
    }
}

#[test]
fn the_sheets_of_all_kinds_are_accepted() {
    let contract = contract_write::contract(&contract_of_all_kinds());
    let program = program_write::program(&program_of_all_kinds());
    assert_eq!(lower_answer(&contract, SHEET_LIMIT).number(), 0);
    assert_eq!(verify_answer(&program).to_string(), "OK");
    let has = |sheet: &[u8], root, wanted: u16| {
        let tree = parse::parse(sheet, root);
        tree.nodes.iter().any(|node| node.kind == wanted)
    };
    for wanted in (1..=6).chain(10..=20).chain(30..=37) {
        assert!(has(&contract, kind::CONTRACT, wanted), "kind {wanted}");
    }
    for wanted in (50..=53).chain(60..=81).chain(90..=93) {
        assert!(has(&program, kind::PROGRAM, wanted), "kind {wanted}");
    }
}
