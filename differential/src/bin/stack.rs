//! Prints how many bytes of stack the archive's calls take: those that read a
//! contract sheet, for sheets of two depths, and so how many each level takes;
//! and the most of lowering a contract of depth 40, and of verifying.
//!
//! The stack below the caller is filled with a pattern; after the call, the
//! lowest byte that differs from it is where the call got to.

use std::hint::black_box;
use std::ptr;

use differential::archive;
use differential::generate::nesting::{accesses, of_depth_40};
use differential::sheet::{kind, SHEET_LIMIT};

/// How much of the stack is filled, and the stack of the thread that measures.
const FILLED: usize = 2 << 20;
const STACK: usize = 2 * FILLED;

const PATTERN: u8 = 0xA5;

/// Field accesses inside each other, of 8 bytes each: few, and as many as fit
/// into a sheet. A contract, a function, a statement and an Ident take 36 bytes.
const SHALLOW: usize = 90;
const DEEP: usize = (SHEET_LIMIT - 36) / 8;

/// A call on a sheet, with an output for lowering.
type Call = fn(&[u8], &mut [u8]) -> [usize; 6];

const CALLS: [(&str, Call); 3] = [
    ("malovuneth_contract_form", |sheet, _| {
        archive::contract_form(sheet)
    }),
    ("malovuneth_contract_check", |sheet, _| {
        archive::contract_check(sheet)
    }),
    ("malovuneth_lower", archive::lower),
];

fn main() {
    println!("| call | levels | bytes of stack | levels | bytes of stack | bytes a level |");
    println!("|---|---|---|---|---|---|");
    for (name, call) in CALLS {
        // The contract, its function, a statement and an Ident are four levels more.
        let [few, many] = [SHALLOW, DEEP].map(|levels| {
            let sheet = accesses(levels, kind::IDENT);
            (levels + 4, stack_of(call, sheet))
        });
        let level = (many.1 - few.1) as f64 / (many.0 - few.0) as f64;
        print!("| {name} | {} | {} ", few.0, few.1);
        println!("| {} | {} | {level:.1} |", many.0, many.1);
    }
    println!("\n| call | sheets | most bytes of stack |");
    println!("|---|---|---|");
    let contracts = of_depth_40();
    let most = most_stack_of(archive::lower, &contracts);
    println!(
        "| malovuneth_lower | {} of depth 40 | {most} |",
        contracts.len()
    );
    let programs: Vec<Vec<u8>> = contracts
        .iter()
        .filter_map(|sheet| lowered(sheet))
        .collect();
    let most = most_stack_of(|sheet, _| archive::verify(sheet), &programs);
    println!(
        "| malovuneth_verify | the {} programs of these | {most} |",
        programs.len()
    );
}

/// The program sheet, of a contract that is not refused.
fn lowered(sheet: &[u8]) -> Option<Vec<u8>> {
    let mut out = vec![0; SHEET_LIMIT];
    let [number, length, ..] = archive::lower(sheet, &mut out);
    (number == 0).then(|| out[..length].to_vec())
}

fn most_stack_of(call: Call, sheets: &[Vec<u8>]) -> usize {
    let each = sheets.iter().map(|sheet| stack_of(call, sheet.clone()));
    each.max().unwrap_or(0)
}

/// The bytes of stack of a call, in a thread of its own.
fn stack_of(call: Call, sheet: Vec<u8>) -> usize {
    let run = move || {
        let mut out = vec![0; SHEET_LIMIT];
        let filled = fill();
        black_box(call(black_box(&sheet), black_box(&mut out)));
        filled.end - touched(filled.start, filled.end)
    };
    let thread = std::thread::Builder::new().stack_size(STACK).spawn(run);
    thread.unwrap().join().unwrap()
}

/// Fills the stack below the caller, and gives the addresses.
#[inline(never)]
fn fill() -> std::ops::Range<usize> {
    let mut bytes = [PATTERN; FILLED];
    let start = black_box(&mut bytes).as_ptr() as usize;
    start..start + FILLED
}

/// The lowest address that no longer has the pattern.
#[inline(never)]
fn touched(start: usize, end: usize) -> usize {
    let has_pattern = |&at: &usize| {
        // SAFETY: this thread's stack is mapped there, and holds plain bytes.
        unsafe { ptr::read_volatile(at as *const u8) == PATTERN }
    };
    (start..end).find(|at| !has_pattern(at)).unwrap_or(end)
}
