//! Cases: sheets, and for lowering the length of the lent output.

pub mod analysis;
mod analysis_names;
pub mod bodies;
mod body;
mod calls;
mod catalogue;
mod contract;
mod damage;
pub mod exhaust;
mod expr;
mod items;
mod lower_limits;
pub mod nesting;
mod overflow;
mod program;
pub mod rng;
mod rooms;
mod rules;
pub mod typed;
mod verify_limits;

pub use catalogue::{contract_of_all_kinds, program_of_all_kinds, typed_contract_of_all_kinds};
pub use damage::splice;

use crate::oracle::{lower_answer, Answer};
use crate::sheet::{contract_write, kind, program_write, SHEET_LIMIT};
use contract::Style;
use rng::Rng;

/// One question to the subject. Verifying has no use for `room`.
#[derive(Debug, Clone)]
pub struct Case {
    pub sheet: Vec<u8>,
    /// The length of the lent output.
    pub room: usize,
}

impl Case {
    /// A sheet with the usual output of 32,768 bytes.
    pub fn of(sheet: Vec<u8>) -> Self {
        Case {
            sheet,
            room: SHEET_LIMIT,
        }
    }
}

/// The lowering cases without chance.
pub fn fixed_lower_cases() -> Vec<Case> {
    let mut cases = rule_cases();
    cases.extend(lower_limits::cases());
    cases.extend(overflow::cases());
    cases.extend(rooms::cases());
    let all_kinds = contract_write::contract(&contract_of_all_kinds());
    cases.extend(systematic(&all_kinds, kind::CONTRACT));
    cases
}

/// The body check's cases without chance.
pub fn fixed_analyze_cases() -> Vec<Case> {
    let mut contracts = analysis::contracts();
    contracts.extend(analysis_names::contracts());
    let sheets = contracts.iter().map(contract_write::contract);
    let mut cases: Vec<Case> = sheets.map(Case::of).collect();
    cases.extend(rule_cases());
    cases.extend(lower_limits::cases());
    cases.extend(overflow::cases());
    cases.extend(nesting::of_depth_40().into_iter().map(Case::of));
    let all_kinds = contract_write::contract(&typed_contract_of_all_kinds());
    cases.extend(systematic(&all_kinds, kind::CONTRACT));
    cases
}

/// The verifying cases without chance.
pub fn fixed_verify_cases() -> Vec<Case> {
    let rules = rule_cases().into_iter();
    let lowered = rules.filter_map(|case| finished(&case.sheet));
    let mut cases: Vec<Case> = lowered.map(Case::of).collect();
    cases.extend(verify_limits::cases());
    let all_kinds = program_write::program(&program_of_all_kinds());
    cases.extend(systematic(&all_kinds, kind::PROGRAM));
    cases
}

fn rule_cases() -> Vec<Case> {
    let mut contracts = rules::contracts();
    contracts.extend(calls::contracts());
    let sheets = contracts.iter().map(contract_write::contract);
    sheets.map(Case::of).collect()
}

/// The program sheet that a contract sheet is lowered to.
fn finished(sheet: &[u8]) -> Option<Vec<u8>> {
    match lower_answer(sheet, SHEET_LIMIT) {
        Answer::Accepted(finished) => Some(finished),
        Answer::Refused { .. } => None,
    }
}

/// The small sheets, and all systematic damages of a sheet of all kinds.
fn systematic(all_kinds: &[u8], root: u16) -> Vec<Case> {
    let mut sheets = exhaust::small_sheets(root);
    sheets.extend(damage::every_record(all_kinds, root));
    sheets.extend(damage::every_pair(all_kinds, root));
    sheets.extend(damage::every_field(all_kinds, root));
    sheets.into_iter().map(Case::of).collect()
}

/// The lowering case of a seed and an index.
pub fn lower_case(seed: u64, index: u64) -> Case {
    let rng = &mut Rng::of_case(seed, index);
    let style = Style::random(rng);
    let contract = match rng.below(80) {
        0 => contract::crowded(rng),
        1 | 2 => contract_of_all_kinds(),
        _ => contract::contract(rng, style),
    };
    let mut sheet = contract_write::contract(&contract);
    if rng.one_in(3) {
        sheet = damage::some(rng, &sheet, kind::CONTRACT);
    }
    let room = match rng.one_in(8) {
        true => room(rng, &sheet),
        false => SHEET_LIMIT,
    };
    Case { sheet, room }
}

/// The body check's case of a seed and an index.
pub fn analyze_case(seed: u64, index: u64) -> Case {
    let rng = &mut Rng::of_case(seed, index);
    let style = Style::random(rng);
    let contract = match rng.below(20) {
        0 => typed_contract_of_all_kinds(),
        1 | 2 => contract::contract(rng, style),
        _ => {
            let slip = rng.pick(&[0, 0, 0, 100, 30, 10]);
            typed::contract(rng, slip)
        }
    };
    let sheet = contract_write::contract(&contract);
    Case::of(match rng.below(8) {
        0 => damage::some(rng, &sheet, kind::CONTRACT),
        1..=3 => damage::numbers(rng, &sheet, kind::CONTRACT),
        _ => sheet,
    })
}

/// A length about that of the finished sheet, or any other.
fn room(rng: &mut Rng, sheet: &[u8]) -> usize {
    let other = match rng.one_in(2) {
        true => rng.below(rooms::SMALL + 1),
        false => rng.pick(&[500, 1_000, 2_000, 5_000, SHEET_LIMIT - 1, 40_000]),
    };
    match finished(sheet) {
        Some(finished) if !rng.one_in(3) => {
            (finished.len() + rng.pick(&[1, 2, 2, 2, 3, 40])).saturating_sub(2)
        }
        _ => other,
    }
}

/// The verifying case of a seed and an index.
pub fn verify_case(seed: u64, index: u64) -> Case {
    let rng = &mut Rng::of_case(seed, index);
    let mut sheet = match rng.below(20) {
        0 => program_write::program(&program_of_all_kinds()),
        1..=8 => lowered(rng),
        _ => program_write::program(&program::program(rng)),
    };
    if rng.one_in(2) {
        sheet = damage::some(rng, &sheet, kind::PROGRAM);
    }
    Case::of(sheet)
}

/// The program sheet of a random contract; if one is refused, a smaller one is
/// tried without mistakes.
fn lowered(rng: &mut Rng) -> Vec<u8> {
    let mut style = Style::random(rng);
    loop {
        let contract = contract::contract(rng, style);
        let sheet = contract_write::contract(&contract);
        if let Some(program) = finished(&sheet) {
            return program;
        }
        style = Style::small();
    }
}
