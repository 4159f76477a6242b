//! The places that the second walk gives, held against what the Rust says of
//! parts of a sheet: it gives no place, but the same number for the record
//! alone, and no error for what comes before it or stands within it.

use crate::analysis::{analyze, by_rust, REFUSAL};
use crate::driver::Task;
use crate::oracle::{checked, Answer};
use crate::sheet::kind;
use crate::sheet::parse::{Node, Tree};

use super::raw::record;

/// The place and the number of a refusal of the body check.
fn refusal(sheet: &[u8]) -> Option<(usize, u16)> {
    match analyze(sheet) {
        Answer::Refused {
            number: REFUSAL,
            details,
        } => Some((details[0] as usize, details[1] as u16)),
        _ => None,
    }
}

fn put_length(sheet: &mut [u8], place: usize, length: usize) {
    sheet[place..place + 4].copy_from_slice(&(length as u32).to_le_bytes());
}

/// A record without its children.
fn bare(tree: &Tree, node: &Node) -> Vec<u8> {
    let mut bytes = tree.bytes[node.place..node.body].to_vec();
    put_length(&mut bytes, 0, node.body - node.place);
    bytes
}

/// The sheet up to a statement, with another one in its place, and behind it
/// no more than the later functions without their bodies.
fn cut(tree: &Tree, statement: &Node, instead: &[u8]) -> Vec<u8> {
    let mut sheet = [&tree.bytes[..statement.place], instead].concat();
    let end = sheet.len();
    let functions = tree.nodes.iter().filter(|node| node.kind == kind::FUNCTION);
    for later in functions.filter(|node| node.place > statement.place) {
        sheet.extend(bare(tree, later));
    }
    let mut outer = statement.parent;
    while let Some(node) = outer {
        let Node { place, parent, .. } = tree.nodes[node];
        let end = parent.map_or(sheet.len(), |_| end);
        put_length(&mut sheet, place, end - place);
        outer = parent;
    }
    sheet
}

/// A record with an error, and the statement that it stands in.
struct Found<'t> {
    tree: &'t Tree<'t>,
    record: &'t Node,
    statement: &'t Node,
}

impl<'t> Found<'t> {
    fn at(tree: &'t Tree<'t>, place: usize) -> Self {
        let at = tree.nodes.iter().find(|node| node.place == place);
        let record = at.expect("a record at the place");
        let is_statement = |node: &&Node| (kind::LET..=kind::EXPR).contains(&node.kind);
        let statement = around(tree, record).find(is_statement);
        Found {
            tree,
            record,
            statement: statement.expect("a statement around it"),
        }
    }

    /// The number that the Rust gives if there is another statement.
    fn number(&self, instead: &[u8]) -> Option<u16> {
        let sheet = cut(self.tree, self.statement, instead);
        by_rust(&checked(&sheet).expect("a good sheet"))
    }

    /// The number that it gives for an expression alone.
    fn number_of(&self, expression: &[u8]) -> Option<u16> {
        self.number(&record(kind::EXPR, &[expression]))
    }

    fn bytes(&self, node: &Node) -> &'t [u8] {
        &self.tree.bytes[node.place..node.end]
    }

    /// The expressions that stand directly in a record, in a literal those of
    /// its fields.
    fn parts(&self, node: &Node) -> Vec<&'t Node> {
        let children = node.children.iter().map(|&child| &self.tree.nodes[child]);
        children
            .flat_map(|child| match child.kind {
                kind::LITERAL_FIELD => self.parts(child),
                kind::BLOCK => vec![],
                _ => vec![child],
            })
            .collect()
    }

    /// Whether the record alone has the error.
    fn alone(&self, number: u16) -> bool {
        let bytes = self.bytes(self.record);
        let given = match self.record.place == self.statement.place {
            true => self.number(bytes),
            false => self.number_of(bytes),
        };
        given == Some(number)
    }

    /// Whether nothing within the record has one. What is in an Assign of an
    /// unknown name or a literal of an undeclared struct does not matter, nor
    /// what comes behind a literal's wrong field.
    fn good_within(&self, number: u16) -> bool {
        let parts = self.parts(self.record);
        let first = match number {
            2 | 9 => 0,
            7 | 8 => self.wrong_field() + 1,
            _ => parts.len(),
        };
        parts[..first].iter().all(|part| self.is_good(part))
    }

    /// The first field up to which a literal has an error.
    fn wrong_field(&self) -> usize {
        let Node {
            place, children, ..
        } = self.record;
        let wrong = |&child: &usize| {
            let mut bytes = self.tree.bytes[*place..self.tree.nodes[child].end].to_vec();
            let length = bytes.len();
            put_length(&mut bytes, 0, length);
            self.number_of(&bytes).is_some()
        };
        children.iter().position(wrong).expect("a wrong field")
    }

    fn is_good(&self, expression: &Node) -> bool {
        self.number_of(self.bytes(expression)).is_none()
    }

    /// Whether nothing before the record has one: neither what stands before
    /// the statement nor what comes before it in there, nor a literal around
    /// it by its name.
    fn good_before(&self) -> bool {
        let outer = around(self.tree, self.record).skip(1);
        let outer: Vec<&Node> = outer
            .take_while(|node| node.place >= self.statement.place)
            .collect();
        let before = |node: &&Node| node.end <= self.record.place;
        let literals = outer
            .iter()
            .filter(|node| node.kind == kind::STRUCT_LITERAL);
        let mut parts = outer
            .iter()
            .flat_map(|node| self.parts(node))
            .filter(before);
        self.number(&[]).is_none()
            && parts.all(|part| self.is_good(part))
            && literals
                .map(|node| bare(self.tree, node))
                .all(|bytes| self.number_of(&bytes).is_none())
    }
}

/// A record and those around it, from the inside out.
fn around<'t>(tree: &'t Tree, node: &'t Node) -> impl Iterator<Item = &'t Node> {
    let outer = |node: &&'t Node| node.parent.map(|parent| &tree.nodes[parent]);
    std::iter::successors(Some(node), outer)
}

/// Whether the Rust raises the error of a sheet at the place that is given;
/// true for a sheet without one.
fn confirmed(sheet: &[u8]) -> bool {
    let Some((place, number)) = refusal(sheet) else {
        return true;
    };
    let tree = checked(sheet).expect("a good sheet");
    let found = Found::at(&tree, place);
    found.good_before() && found.good_within(number) && found.alone(number)
}

#[test]
fn the_rust_confirms_the_places() {
    let random = (0..5_000).map(|index| Task::Analyze.case(2, index));
    for case in Task::Analyze.fixed_cases().into_iter().chain(random) {
        let sheet = &case.sheet;
        assert!(confirmed(sheet), "{}", crate::proof_sheets::hex(sheet));
    }
}
