//! Damaged sheets: fields replaced, records moved with their lengths kept
//! right, bytes changed.

use super::rng::Rng;
use crate::sheet::kind;
use crate::sheet::layout::{self, Field};
use crate::sheet::parse::{self, Node, Tree, HEADER};

/// A place in a sheet whose bytes belong together.
#[derive(Debug, Clone, Copy, PartialEq, Eq)]
enum Spot {
    Length(usize),
    Kind(usize),
    /// A name, an id, a count or another u16.
    Number(usize),
    Type(usize),
    /// Four or eight bytes of any value.
    Wide(usize, usize),
}

/// The spots of all records that could be read.
fn spots(tree: &Tree) -> Vec<Spot> {
    let mut spots = Vec::new();
    for node in &tree.nodes {
        spots.push(Spot::Length(node.place));
        spots.push(Spot::Kind(node.place + 4));
        let mut visit = |place, field| {
            spots.push(match field {
                Field::Type => Spot::Type(place),
                Field::Bytes4 => Spot::Wide(place, 4),
                Field::Bytes8 => Spot::Wide(place, 8),
                _ => Spot::Number(place),
            })
        };
        let fields = layout::fields(node.kind);
        layout::walk(
            fields,
            tree.bytes,
            node.place + HEADER,
            node.end,
            &mut visit,
        );
    }
    spots
}

/// One to four random damages of a sheet whose outermost kind is `root`.
pub fn some(rng: &mut Rng, sheet: &[u8], root: u16) -> Vec<u8> {
    let mut damaged = sheet.to_vec();
    let times = rng.pick(&[1, 1, 1, 1, 1, 2, 2, 4]);
    for _ in 0..times {
        let tree = parse::parse(&damaged, root);
        damaged = match rng.below(8) {
            0..=3 => field(rng, &tree),
            4 | 5 => record(rng, &tree),
            6 => bytes(rng, &damaged),
            _ => ends(rng, &tree),
        };
    }
    damaged
}

/// One to three numbers of a sheet replaced by others of it, or by some that
/// are close: the form mostly stays.
pub fn numbers(rng: &mut Rng, sheet: &[u8], root: u16) -> Vec<u8> {
    let mut spots = spots(&parse::parse(sheet, root));
    spots.retain(|spot| matches!(spot, Spot::Number(_)));
    let mut damaged = sheet.to_vec();
    for _ in 0..rng.between(1, 3) {
        if let Spot::Number(place) = rng.pick(&spots) {
            let new = new_number(rng, u16_in(&damaged, place), &spots, &damaged);
            put(&mut damaged, place, &new.to_le_bytes());
        }
    }
    damaged
}

fn u16_in(bytes: &[u8], place: usize) -> u16 {
    u16::from_le_bytes([bytes[place], bytes[place + 1]])
}

fn put(bytes: &mut [u8], place: usize, new: &[u8]) {
    bytes[place..place + new.len()].copy_from_slice(new);
}

/// Replaces one field.
fn field(rng: &mut Rng, tree: &Tree) -> Vec<u8> {
    let mut damaged = tree.bytes.to_vec();
    let spots = spots(tree);
    if spots.is_empty() {
        return bytes(rng, tree.bytes);
    }
    // Lengths and kinds mostly break the form, which the other damages do too.
    let mut spot = rng.pick(&spots);
    if matches!(spot, Spot::Length(_) | Spot::Kind(_)) && !rng.one_in(3) {
        spot = rng.pick(&spots);
    }
    match spot {
        Spot::Length(place) => {
            let old = u32::from_le_bytes(damaged[place..place + 4].try_into().unwrap());
            put(&mut damaged, place, &new_length(rng, old).to_le_bytes());
        }
        Spot::Kind(place) => {
            let new = new_kind(rng, u16_in(&damaged, place));
            put(&mut damaged, place, &new.to_le_bytes());
        }
        Spot::Number(place) => {
            let new = new_number(rng, u16_in(&damaged, place), &spots, &damaged);
            put(&mut damaged, place, &new.to_le_bytes());
        }
        Spot::Type(place) => {
            let [tag, name] = new_type(rng, &spots, &damaged);
            put(&mut damaged, place, &tag.to_le_bytes());
            put(&mut damaged, place + 2, &name.to_le_bytes());
        }
        Spot::Wide(place, size) => {
            let new = rng.edge_u64().to_le_bytes();
            put(&mut damaged, place, &new[..size]);
        }
    }
    damaged
}

fn new_length(rng: &mut Rng, old: u32) -> u32 {
    match rng.below(5) {
        0 => old.wrapping_add(rng.between(1, 8) as u32),
        1 | 2 => old.wrapping_sub(rng.between(1, 8) as u32),
        3 => rng.pick(&[0, 5, 6, 7, 32_768, 65_536, 1 << 31, u32::MAX]),
        _ => old ^ (1 << rng.below(32)),
    }
}

fn new_kind(rng: &mut Rng, old: u16) -> u16 {
    match rng.below(4) {
        0 => rng.below(100) as u16,
        1 => rng.edge_u16(),
        // Kinds that are close often have the same fields.
        _ => old.wrapping_add(rng.pick(&[1, 2, 3, 65_533, 65_534, 65_535])),
    }
}

fn new_number(rng: &mut Rng, old: u16, spots: &[Spot], bytes: &[u8]) -> u16 {
    match rng.below(4) {
        0 => rng.edge_u16(),
        1 => old.wrapping_add(rng.pick(&[1, 65_535])),
        _ => match rng.pick(spots) {
            Spot::Number(other) => u16_in(bytes, other),
            _ => rng.below(12) as u16,
        },
    }
}

fn new_type(rng: &mut Rng, spots: &[Spot], bytes: &[u8]) -> [u16; 2] {
    if let Spot::Type(other) = rng.pick(spots) {
        return [u16_in(bytes, other), u16_in(bytes, other + 2)];
    }
    match rng.below(8) {
        0 => [rng.edge_u16(), 0],
        1 => [rng.below(6) as u16, rng.edge_u16()],
        2 | 3 => [3, rng.pick(&[0, 4, 10, 11, 65_534])],
        _ => [rng.below(5) as u16, 0],
    }
}

/// A sheet with some bytes replaced by others, where the record `owner` and
/// all records around it keep right lengths.
pub fn splice(tree: &Tree, owner: Option<usize>, from: usize, to: usize, with: &[u8]) -> Vec<u8> {
    let mut sheet = tree.bytes[..from].to_vec();
    sheet.extend(with);
    sheet.extend(&tree.bytes[to..]);
    let mut next = owner;
    while let Some(node) = next {
        let Node {
            place, end, parent, ..
        } = tree.nodes[node];
        let length = (end - place + with.len() - (to - from)) as u32;
        put(&mut sheet, place, &length.to_le_bytes());
        next = parent;
    }
    sheet
}

/// Removes, repeats, replaces or moves a record.
fn record(rng: &mut Rng, tree: &Tree) -> Vec<u8> {
    if tree.nodes.len() < 2 {
        return bytes(rng, tree.bytes);
    }
    let chosen = &tree.nodes[rng.between(1, tree.nodes.len() - 1)];
    let other = &tree.nodes[rng.between(1, tree.nodes.len() - 1)];
    let own = &tree.bytes[chosen.place..chosen.end];
    let others = &tree.bytes[other.place..other.end];
    let owner = chosen.parent;
    match rng.below(6) {
        0 | 1 => splice(tree, owner, chosen.place, chosen.end, &[]),
        2 => splice(tree, owner, chosen.end, chosen.end, own),
        3 => splice(tree, owner, chosen.place, chosen.end, others),
        4 => splice(tree, owner, chosen.place, chosen.place, others),
        _ => swap(tree, chosen),
    }
}

/// Swaps a record with its next sibling.
fn swap(tree: &Tree, chosen: &Node) -> Vec<u8> {
    let next = tree.nodes.iter().find(|node| node.place == chosen.end);
    let Some(next) = next.filter(|next| next.parent == chosen.parent) else {
        return splice(tree, chosen.parent, chosen.place, chosen.end, &[]);
    };
    let own = &tree.bytes[chosen.place..chosen.end];
    let swapped = [&tree.bytes[next.place..next.end], own].concat();
    splice(tree, chosen.parent, chosen.place, next.end, &swapped)
}

/// Lengthens or shortens a record at its end or at the end of its fields, with
/// the lengths kept right.
fn ends(rng: &mut Rng, tree: &Tree) -> Vec<u8> {
    if tree.nodes.is_empty() {
        return bytes(rng, tree.bytes);
    }
    let chosen = rng.below(tree.nodes.len());
    let Node {
        place, body, end, ..
    } = tree.nodes[chosen];
    let at = if rng.one_in(2) { body } else { end };
    let size = rng.between(1, 4);
    if rng.one_in(2) {
        let new: Vec<u8> = (0..size).map(|_| rng.below(4) as u8).collect();
        return splice(tree, Some(chosen), at, at, &new);
    }
    let from = at.saturating_sub(size).max(place + HEADER).min(at);
    splice(tree, Some(chosen), from, at, &[])
}

/// Changes, removes or adds bytes anywhere.
fn bytes(rng: &mut Rng, sheet: &[u8]) -> Vec<u8> {
    let mut damaged = sheet.to_vec();
    if damaged.is_empty() {
        return vec![rng.next_u64() as u8];
    }
    let at = rng.below(damaged.len());
    match rng.below(6) {
        0 => damaged[at] = rng.next_u64() as u8,
        1 => damaged[at] ^= 1 << rng.below(8),
        2 => damaged.insert(at, rng.next_u64() as u8),
        3 => drop(damaged.remove(at)),
        4 => damaged.truncate(at),
        _ => damaged.extend((0..rng.between(1, 8)).map(|_| rng.edge_u16() as u8)),
    }
    damaged
}

/// Every field of a sheet replaced by each of some boundary values, one at a
/// time.
pub fn every_field(sheet: &[u8], root: u16) -> Vec<Vec<u8>> {
    let mut sheets = Vec::new();
    for spot in spots(&parse::parse(sheet, root)) {
        let (place, values) = boundary_values(spot, sheet);
        for value in values {
            let mut damaged = sheet.to_vec();
            put(&mut damaged, place, &value);
            sheets.push(damaged);
        }
    }
    sheets
}

/// The place of a spot and the bytes to put there.
fn boundary_values(spot: Spot, sheet: &[u8]) -> (usize, Vec<Vec<u8>>) {
    const NUMBERS: [u16; 20] = [
        0, 1, 2, 3, 4, 5, 6, 7, 8, 9, 10, 11, 20, 255, 256, 32_767, 32_768, 65_533, 65_534, 65_535,
    ];
    const LENGTHS: [u32; 6] = [0, 5, 6, 32_769, 1 << 31, u32::MAX];
    const NAMES: [u16; 6] = [0, 1, 4, 10, 65_534, 65_535];
    let number = |number: u16| number.to_le_bytes().to_vec();
    match spot {
        Spot::Length(place) => {
            let old = u32::from_le_bytes(sheet[place..place + 4].try_into().unwrap());
            let near = (0..17).map(|step| old.wrapping_add(step).wrapping_sub(8));
            let lengths = near.chain(LENGTHS);
            (
                place,
                lengths.map(|new| new.to_le_bytes().to_vec()).collect(),
            )
        }
        Spot::Kind(place) => (place, (0..=100).map(number).collect()),
        Spot::Number(place) => (place, NUMBERS.map(number).to_vec()),
        Spot::Type(place) => {
            let pairs = (0..6).flat_map(|tag| NAMES.map(|name| (tag, name)));
            let bytes = pairs.map(|(tag, name)| [number(tag), number(name)].concat());
            (place, bytes.collect())
        }
        Spot::Wide(place, size) => {
            let bytes = [0, 1, 0x80, 0xFF].iter();
            (place, bytes.map(|&byte| vec![byte; size]).collect())
        }
    }
}

/// A sheet with one record removed or repeated, or with a small record of any
/// kind put before it or at the end of its parent, for every record.
pub fn every_record(sheet: &[u8], root: u16) -> Vec<Vec<u8>> {
    let tree = parse::parse(sheet, root);
    let mut sheets = Vec::new();
    for (position, node) in tree.nodes.iter().enumerate() {
        let own = &sheet[node.place..node.end];
        if node.parent.is_some() {
            sheets.push(splice(&tree, node.parent, node.place, node.end, &[]));
            sheets.push(splice(&tree, node.parent, node.end, node.end, own));
        }
        for &kind in smallest_kinds(root) {
            let small = smallest(kind);
            if node.parent.is_some() {
                sheets.push(splice(&tree, node.parent, node.place, node.place, &small));
            }
            sheets.push(splice(&tree, Some(position), node.end, node.end, &small));
        }
    }
    sheets
}

/// One kind of each group of records, all that a neighbour can be taken for.
fn smallest_kinds(root: u16) -> &'static [u16] {
    match root {
        kind::CONTRACT => &[
            kind::STORAGE,
            kind::STRUCT,
            kind::FUNCTION,
            kind::BLOCK,
            kind::LITERAL_FIELD,
            kind::RETURN,
            kind::EMIT,
            kind::IDENT,
            kind::CALL,
        ],
        _ => &[
            kind::IR_FUNCTION,
            kind::FUNCTION_NAME,
            kind::IR_BLOCK,
            kind::CONTEXT_READ,
            kind::IR_EMIT,
            kind::JUMP,
            kind::UNREACHABLE,
        ],
    }
}

/// A record of zeros that has just its fields.
fn smallest(kind: u16) -> Vec<u8> {
    let mut content = Vec::new();
    for &field in layout::fields(kind) {
        let size = match field {
            Field::Counted(_) => 2,
            Field::Listed(_) => 0,
            plain => layout::size(plain),
        };
        content.extend(vec![0; size]);
    }
    let length = (HEADER + content.len()) as u32;
    [&length.to_le_bytes()[..], &kind.to_le_bytes(), &content].concat()
}

/// A sheet with two numbers or types that are close to each other replaced at
/// the same time, mostly by unknown ones: the answer tells which is looked at
/// first.
pub fn every_pair(sheet: &[u8], root: u16) -> Vec<Vec<u8>> {
    const FIRST: [u16; 3] = [900, 0, 2];
    const SECOND: [u16; 2] = [901, 0];
    const CLOSE: usize = 8;
    let tree = parse::parse(sheet, root);
    let mut spots = spots(&tree);
    spots.retain(|spot| matches!(spot, Spot::Number(_) | Spot::Type(_)));
    let mut sheets = Vec::new();
    for (position, &first) in spots.iter().enumerate() {
        for &second in spots[position + 1..].iter().take(CLOSE) {
            for (one, other) in FIRST
                .iter()
                .flat_map(|one| SECOND.map(|other| (one, other)))
            {
                let mut damaged = sheet.to_vec();
                put_number(&mut damaged, first, *one);
                put_number(&mut damaged, second, other);
                sheets.push(damaged);
            }
        }
    }
    sheets
}

/// Puts a number, or the struct type of that name.
fn put_number(bytes: &mut [u8], spot: Spot, number: u16) {
    match spot {
        Spot::Type(place) => {
            put(bytes, place, &3u16.to_le_bytes());
            put(bytes, place + 2, &number.to_le_bytes());
        }
        Spot::Number(place) => put(bytes, place, &number.to_le_bytes()),
        _ => unreachable!("neither a number nor a type"),
    }
}
