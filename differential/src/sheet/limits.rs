//! Refusal 4: the limits of a well-formed contract sheet.

use super::kind::*;
use super::parse::{Node, Tree, HEADER};

const FUNCTIONS: usize = 64;
const STRUCTS: usize = 64;
const STORAGE_FIELDS: usize = 256;
const STRUCT_FIELDS: usize = 64;
const PARAMETERS: usize = 16;
const ARGUMENTS: usize = 16;
const DEPTH: u32 = 40;

/// The place of the first record that passes a limit.
pub fn exceeded(tree: &Tree) -> Option<usize> {
    let mut functions = 0;
    let mut structs = 0;
    let mut storage_fields = 0;
    for node in &tree.nodes {
        let over = match node.kind {
            FUNCTION => {
                functions += 1;
                functions > FUNCTIONS || parameters(node) > PARAMETERS
            }
            STRUCT => {
                structs += 1;
                structs > STRUCTS || struct_fields(node) > STRUCT_FIELDS
            }
            STORAGE => {
                storage_fields += 1;
                storage_fields > STORAGE_FIELDS
            }
            CALL | EMIT => node.children.len() > ARGUMENTS,
            _ => false,
        };
        if over || node.depth > DEPTH {
            return Some(node.place);
        }
    }
    None
}

/// A function's parameters take 4 bytes each, after 8 bytes of other fields.
fn parameters(node: &Node) -> usize {
    (node.body - node.place - HEADER - 8) / 4
}

/// A struct's fields take 4 bytes each, after its name.
fn struct_fields(node: &Node) -> usize {
    (node.end - node.place - HEADER - 2) / 4
}
