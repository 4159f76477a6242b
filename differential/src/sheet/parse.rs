//! Bytes to a checked record tree.

use super::layout::{self, Children, Kinds};

/// One record of a sheet.
#[derive(Debug, Clone)]
pub struct Node {
    /// Its first byte.
    pub place: usize,
    /// The byte after its last one.
    pub end: usize,
    /// The byte after its fixed fields, where its first child should start.
    pub body: usize,
    pub kind: u16,
    /// 1 for the outermost record.
    pub depth: u32,
    pub parent: Option<usize>,
    pub children: Vec<usize>,
}

/// The records of a sheet in the order of their places. They are kept in one
/// list and not in boxes: a sheet can nest some 4,090 records, too many for a
/// tree that is built or dropped by recursion.
#[derive(Debug)]
pub struct Tree<'a> {
    pub bytes: &'a [u8],
    pub nodes: Vec<Node>,
    /// The lowest place where a record should start, or surplus begins, and no
    /// good record starts. The nodes are then those that come before it.
    pub malformed: Option<usize>,
}

/// Bytes from a record's first byte to its kind.
pub const HEADER: usize = 6;

/// A record whose children are being read.
struct Open {
    node: usize,
    /// The next part of its sequence of children.
    part: usize,
    /// The next byte to read.
    at: usize,
}

/// Checks a sheet whose outermost record must have the given kind.
pub fn parse(bytes: &[u8], root: u16) -> Tree<'_> {
    let mut tree = Tree {
        bytes,
        nodes: Vec::new(),
        malformed: None,
    };
    tree.malformed = tree.fill(root).err();
    tree
}

impl Tree<'_> {
    /// Reads all records; the error is the malformed place.
    fn fill(&mut self, root: u16) -> Result<(), usize> {
        let mut open = vec![self.enter(0, self.bytes.len(), (root, root), None)?];
        while let Some(top) = open.last_mut() {
            match self.next_child(top)? {
                Some(child) => open.push(child),
                None => {
                    let end = self.nodes[top.node].end;
                    open.pop();
                    if let Some(parent) = open.last_mut() {
                        parent.at = end;
                    }
                }
            }
        }
        match self.nodes[0].end {
            end if end < self.bytes.len() => Err(end),
            _ => Ok(()),
        }
    }

    /// Opens the next child of an open record, or gives nothing if the record
    /// is complete.
    fn next_child(&mut self, open: &mut Open) -> Result<Option<Open>, usize> {
        let Node { kind, end, .. } = self.nodes[open.node];
        while let Some(&part) = layout::children(kind).get(open.part) {
            let (kinds, must, again) = match part {
                Children::One(kinds) => (kinds, true, false),
                Children::Perhaps(kinds) => (kinds, false, false),
                Children::Many(kinds) => (kinds, false, true),
            };
            if must || self.starts(open.at, end, kinds) {
                let child = self.enter(open.at, end, kinds, Some(open.node))?;
                if !again {
                    open.part += 1;
                }
                return Ok(Some(child));
            }
            open.part += 1;
        }
        // Nothing more is allowed: what remains is surplus.
        match open.at < end {
            true => Err(open.at),
            false => Ok(None),
        }
    }

    /// Whether the bytes at `place` give one of the kinds, good record or not.
    fn starts(&self, place: usize, end: usize, kinds: Kinds) -> bool {
        layout::u16_at(self.bytes, place + 4, end)
            .is_some_and(|kind| kinds.0 <= kind && kind <= kinds.1)
    }

    /// Adds the record at `place`; the error is that place.
    fn enter(
        &mut self,
        place: usize,
        limit: usize,
        kinds: Kinds,
        parent: Option<usize>,
    ) -> Result<Open, usize> {
        let (kind, end, body) = self.record(place, limit, kinds).ok_or(place)?;
        let node = self.nodes.len();
        if let Some(parent) = parent {
            self.nodes[parent].children.push(node);
        }
        self.nodes.push(Node {
            place,
            end,
            body,
            kind,
            depth: parent.map_or(1, |parent| self.nodes[parent].depth + 1),
            parent,
            children: Vec::new(),
        });
        Ok(Open {
            node,
            part: 0,
            at: body,
        })
    }

    /// The kind, end and body of the record at `place`, if its kind is among
    /// the allowed ones, its length fits and its fields are valid.
    fn record(&self, place: usize, limit: usize, kinds: Kinds) -> Option<(u16, usize, usize)> {
        if !self.starts(place, limit, kinds) {
            return None;
        }
        let length = u32::from_le_bytes(self.bytes[place..place + 4].try_into().unwrap()) as usize;
        if length < HEADER || length > limit - place {
            return None;
        }
        let kind = layout::u16_at(self.bytes, place + 4, limit)?;
        let end = place + length;
        let fields = layout::fields(kind);
        let body = layout::walk(fields, self.bytes, place + HEADER, end, &mut |_, _| ())?;
        Some((kind, end, body))
    }
}
