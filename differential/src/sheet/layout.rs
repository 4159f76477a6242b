//! What a record of each kind holds: its fields, then its child records.

use super::kind::*;
use crate::names::ABSENT;

/// One field of a record, or a list of fields.
#[derive(Debug, Clone, Copy, PartialEq, Eq)]
pub enum Field {
    /// A name, 0 to 65,534.
    Name,
    /// A name, or 65,535 for an absent return type.
    NameOrAbsent,
    /// An id, 0 to 65,534.
    Id,
    /// An id, or 65,535 for none.
    IdOrAbsent,
    /// A u16 from 0 to the given number.
    UpTo(u16),
    /// A tag from 0 to 4 and a name that is 0 unless the tag is 3.
    Type,
    /// Four bytes, any value.
    Bytes4,
    /// Eight bytes, any value.
    Bytes8,
    /// A u16 count, then that many entries.
    Counted(&'static [Field]),
    /// Entries without a count, up to the end of the record.
    Listed(&'static [Field]),
}

/// An inclusive range of record kinds.
pub type Kinds = (u16, u16);

/// One part of a record's sequence of children.
#[derive(Debug, Clone, Copy)]
pub enum Children {
    One(Kinds),
    Perhaps(Kinds),
    Many(Kinds),
}

use Children::{Many, One, Perhaps};
use Field::*;

const STATEMENTS: Kinds = (LET, EXPR);
const EXPRESSIONS: Kinds = (INT, CALL);
const BLOCKS: Kinds = (BLOCK, BLOCK);
const INSTRUCTIONS: Kinds = (CONST, CONTEXT_READ);
const TERMINATORS: Kinds = (JUMP, UNREACHABLE);

/// The fields of a record of this kind; none for a kind that does not exist.
pub fn fields(kind: u16) -> &'static [Field] {
    match kind {
        CONTRACT | LITERAL_FIELD => &[Name],
        STORAGE => &[Name, Name],
        STRUCT => &[Name, Listed(&[Name, Name])],
        FUNCTION => &[Name, NameOrAbsent, UpTo(1), Counted(&[Name, Name])],
        LET | ASSIGN | STORAGE_WRITE | MAPPING_WRITE | FOR | EMIT => &[Name],
        IDENT | STORAGE_READ | MAPPING_READ | FIELD_ACCESS | STRUCT_LITERAL | CALL => &[Name],
        INT => &[Bytes8],
        BINARY => &[UpTo(9)],
        IR_FUNCTION => &[Id, Name, Type, Counted(&[Id, Type]), Counted(&[Type])],
        FUNCTION_NAME => &[Name, Id],
        IR_BLOCK | JUMP => &[Id],
        BRANCH => &[Id, Id, Id],
        IR_RETURN => &[IdOrAbsent],
        CONST..=CONTEXT_READ => instruction_fields(kind),
        _ => &[],
    }
}

fn instruction_fields(kind: u16) -> &'static [Field] {
    match kind {
        CONST => &[IdOrAbsent, Type, Bytes8],
        ADD..=GE => &[IdOrAbsent, Type, Id, Id],
        LOAD => &[IdOrAbsent, Type, Id, Bytes8],
        STORE => &[IdOrAbsent, Id, Bytes8, Id],
        STATE_READ => &[IdOrAbsent, Type, Bytes4],
        STATE_WRITE => &[IdOrAbsent, Bytes4, Id],
        READ_LOCAL => &[IdOrAbsent, Id, Type],
        WRITE_LOCAL | POSEIDON => &[IdOrAbsent, Id, Id],
        IR_CALL => &[IdOrAbsent, Id, Type, Listed(&[Id])],
        ASSERT => &[IdOrAbsent, Id],
        IR_EMIT => &[IdOrAbsent, Name, Listed(&[Id])],
        CONTEXT_READ => &[IdOrAbsent, UpTo(2)],
        _ => unreachable!("kind {kind} is no instruction"),
    }
}

/// The children of a record of this kind, in the order they must come.
pub fn children(kind: u16) -> &'static [Children] {
    match kind {
        CONTRACT => &[
            Many((STORAGE, STORAGE)),
            Many((STRUCT, STRUCT)),
            Many((FUNCTION, FUNCTION)),
        ],
        FUNCTION | BLOCK => &[Many(STATEMENTS)],
        LITERAL_FIELD | LET | CONSTRAIN | ASSIGN | STORAGE_WRITE | EXPR => &[One(EXPRESSIONS)],
        MAPPING_READ | FIELD_ACCESS => &[One(EXPRESSIONS)],
        MAPPING_WRITE | BINARY => &[One(EXPRESSIONS), One(EXPRESSIONS)],
        IF => &[One(EXPRESSIONS), One(BLOCKS), Perhaps(BLOCKS)],
        WHILE => &[One(EXPRESSIONS), One(BLOCKS)],
        FOR => &[One(EXPRESSIONS), One(EXPRESSIONS), One(BLOCKS)],
        RETURN => &[Perhaps(EXPRESSIONS)],
        EMIT | CALL => &[Many(EXPRESSIONS)],
        STRUCT_LITERAL => &[Many((LITERAL_FIELD, LITERAL_FIELD))],
        PROGRAM => &[
            Many((IR_FUNCTION, IR_FUNCTION)),
            Many((FUNCTION_NAME, FUNCTION_NAME)),
        ],
        IR_FUNCTION => &[Many((IR_BLOCK, IR_BLOCK))],
        IR_BLOCK => &[Many(INSTRUCTIONS), Perhaps(TERMINATORS)],
        _ => &[],
    }
}

/// Reads a u16, or nothing if it does not end by `end`.
pub fn u16_at(bytes: &[u8], at: usize, end: usize) -> Option<u16> {
    let two = bytes[..end].get(at..at + 2)?;
    Some(u16::from_le_bytes([two[0], two[1]]))
}

/// Walks fields from `at` on, calling `visit` with the place of each plain
/// field and of each count. Gives the byte after the last field, or nothing
/// if the fields pass `end`, end a list within an entry or hold a value that
/// is not allowed.
pub fn walk(
    fields: &[Field],
    bytes: &[u8],
    mut at: usize,
    end: usize,
    visit: &mut dyn FnMut(usize, Field),
) -> Option<usize> {
    for &field in fields {
        at = match field {
            Counted(entry) => {
                let count = u16_at(bytes, at, end)?;
                visit(at, field);
                let mut place = at + 2;
                for _ in 0..count {
                    place = walk(entry, bytes, place, end, visit)?;
                }
                place
            }
            Listed(entry) => {
                while at < end {
                    at = walk(entry, bytes, at, end, visit)?;
                }
                at
            }
            plain => {
                let after = plain_field(plain, bytes, at, end)?;
                visit(at, plain);
                after
            }
        };
    }
    Some(at)
}

/// The bytes of a field that is no list.
pub fn size(field: Field) -> usize {
    match field {
        Type | Bytes4 => 4,
        Bytes8 => 8,
        Counted(_) | Listed(_) => unreachable!("a list has no fixed size"),
        _ => 2,
    }
}

/// The byte after a field that is no list, or nothing if it does not fit or is
/// not valid.
fn plain_field(field: Field, bytes: &[u8], at: usize, end: usize) -> Option<usize> {
    let first = u16_at(bytes, at, end)?;
    let valid = match field {
        Name | Id => first != ABSENT,
        UpTo(greatest) => first <= greatest,
        Type => type_is_valid(first, u16_at(bytes, at + 2, end)?),
        _ => true,
    };
    let after = at + size(field);
    (valid && after <= end).then_some(after)
}

fn type_is_valid(tag: u16, name: u16) -> bool {
    match tag {
        3 => name != ABSENT,
        0..=4 => name == 0,
        _ => false,
    }
}
