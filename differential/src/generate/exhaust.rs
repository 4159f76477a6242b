//! Sheets without chance: all short ones, and all small damages of a few.

use super::finished;
use crate::proof_sheets;
use crate::sheet::kind;

/// Values of a byte that stand for the others where all would be too many.
const BYTES: [u8; 22] = [
    0, 1, 2, 3, 4, 5, 6, 7, 8, 10, 11, 14, 16, 30, 37, 52, 60, 80, 92, 127, 128, 255,
];

/// P1 to P12, or the programs they lower to.
pub fn small_sheets(root: u16) -> Vec<Vec<u8>> {
    let sheets = proof_sheets::sheets().into_iter().map(|(_, sheet)| sheet);
    if root == kind::CONTRACT {
        return sheets.collect();
    }
    sheets.filter_map(|sheet| finished(&sheet)).collect()
}

/// Calls `visit` with every such sheet, until it gives false.
pub fn each(root: u16, visit: &mut dyn FnMut(&[u8]) -> bool) -> bool {
    let all: Vec<u8> = (0..=255).collect();
    let small = small_sheets(root);
    short(visit)
        && small.iter().all(|sheet| single(sheet, visit))
        && double(&small[0], &all, visit)
        && double(&small[1], &BYTES, visit)
        && headers(visit)
}

/// Every sheet of up to two bytes.
fn short(visit: &mut dyn FnMut(&[u8]) -> bool) -> bool {
    let one = |byte: u8| [byte];
    visit(&[])
        && (0..=255).map(one).all(|sheet| visit(&sheet))
        && (0..=u16::MAX).all(|pair| visit(&pair.to_le_bytes()))
}

/// Every record without fields, of every kind up to 100 and of small lengths,
/// at the end of the sheet and before more bytes.
fn headers(visit: &mut dyn FnMut(&[u8]) -> bool) -> bool {
    for kind in (0..=100u16).chain([255, 256, 257, 65_535]) {
        for length in 0..=12u32 {
            for more in 0..=8 {
                let mut sheet = length.to_le_bytes().to_vec();
                sheet.extend(kind.to_le_bytes());
                sheet.extend(vec![0; more]);
                if !visit(&sheet) {
                    return false;
                }
            }
        }
    }
    true
}

/// Every value of every byte, every byte removed or doubled, every prefix.
fn single(sheet: &[u8], visit: &mut dyn FnMut(&[u8]) -> bool) -> bool {
    let mut damaged = sheet.to_vec();
    for place in 0..sheet.len() {
        for byte in 0..=255 {
            damaged[place] = byte;
            if !visit(&damaged) {
                return false;
            }
        }
        damaged[place] = sheet[place];
        let (before, after) = sheet.split_at(place);
        let removed = [before, &after[1..]].concat();
        let doubled = [before, &after[..1], after].concat();
        if !visit(&removed) || !visit(&doubled) || !visit(before) {
            return false;
        }
    }
    true
}

/// Every pair of bytes replaced by each pair of the given values.
fn double(sheet: &[u8], values: &[u8], visit: &mut dyn FnMut(&[u8]) -> bool) -> bool {
    let mut damaged = sheet.to_vec();
    for first in 0..sheet.len() {
        for second in first + 1..sheet.len() {
            for &one in values {
                damaged[first] = one;
                for &other in values {
                    damaged[second] = other;
                    if !visit(&damaged) {
                        return false;
                    }
                }
            }
            damaged[second] = sheet[second];
        }
        damaged[first] = sheet[first];
    }
    true
}
