//! Reduces a case on which subject and oracle differ.

use crate::generate::{splice, Case};
use crate::sheet::layout::{self, Field};
use crate::sheet::parse::{self, HEADER};
use crate::sheet::SHEET_LIMIT;

/// The most questions asked while shrinking.
const QUESTIONS: usize = 50_000;

/// A reduction under way.
struct Shrinker<'a> {
    case: Case,
    root: u16,
    left: usize,
    differs: &'a mut dyn FnMut(&Case) -> bool,
}

/// A smaller case for which `differs` still holds.
pub fn shrink(case: Case, root: u16, differs: &mut dyn FnMut(&Case) -> bool) -> Case {
    let mut shrinker = Shrinker {
        case,
        root,
        left: QUESTIONS,
        differs,
    };
    loop {
        let before = (shrinker.case.sheet.clone(), shrinker.case.room);
        shrinker.lower_room();
        shrinker.drop_records();
        shrinker.lift_records();
        shrinker.drop_entries();
        shrinker.drop_bytes();
        shrinker.lower_bytes();
        if before == (shrinker.case.sheet.clone(), shrinker.case.room) || shrinker.left == 0 {
            return shrinker.case;
        }
    }
}

/// An entry of a list in a record.
struct Entry {
    node: usize,
    /// The place of the list's count, if it has one.
    count: Option<usize>,
    from: usize,
    to: usize,
}

/// The entries of the lists of a record.
fn entries(tree: &parse::Tree, node: usize) -> Vec<Entry> {
    let parse::Node {
        place, end, kind, ..
    } = tree.nodes[node];
    let mut entries = Vec::new();
    let mut at = place + HEADER;
    for &field in layout::fields(kind) {
        let (count, fields, times) = match field {
            Field::Counted(fields) => {
                let times = layout::u16_at(tree.bytes, at, end).unwrap_or(0);
                at += 2;
                (Some(at - 2), fields, usize::from(times))
            }
            Field::Listed(fields) => (None, fields, (end - at) / entry_size(fields)),
            plain => {
                at += layout::size(plain);
                continue;
            }
        };
        for _ in 0..times {
            let from = at;
            at += entry_size(fields);
            entries.push(Entry {
                node,
                count,
                from,
                to: at,
            });
        }
    }
    entries
}

fn entry_size(fields: &[Field]) -> usize {
    fields.iter().map(|&field| layout::size(field)).sum()
}

impl Shrinker<'_> {
    /// Takes over a sheet if the difference persists.
    fn try_sheet(&mut self, sheet: Vec<u8>) -> bool {
        let room = self.case.room;
        self.try_case(Case { sheet, room })
    }

    fn try_case(&mut self, case: Case) -> bool {
        if self.left == 0 {
            return false;
        }
        self.left -= 1;
        let differs = (self.differs)(&case);
        if differs {
            self.case = case;
        }
        differs
    }

    /// The usual room if it does, else the smallest of some others.
    fn lower_room(&mut self) {
        for room in [SHEET_LIMIT, 0, 6, self.case.room / 2] {
            let sheet = self.case.sheet.clone();
            if self.case.room == SHEET_LIMIT || self.try_case(Case { sheet, room }) {
                return;
            }
        }
    }

    /// The current sheet changed by `change`, which is given the tree and the
    /// number of a record; nothing past the last record.
    fn changed(
        &self,
        node: usize,
        change: impl Fn(&parse::Tree, usize) -> Option<Vec<u8>>,
    ) -> Option<Option<Vec<u8>>> {
        let tree = parse::parse(&self.case.sheet, self.root);
        (node < tree.nodes.len()).then(|| change(&tree, node))
    }

    /// Tries a change at every record but the outermost. A record that takes
    /// the place of a changed one is tried in its turn.
    fn at_records(&mut self, change: impl Fn(&parse::Tree, usize) -> Option<Vec<u8>>) {
        let mut node = 1;
        while let Some(sheet) = self.changed(node, &change) {
            let done = sheet.is_some_and(|sheet| self.try_sheet(sheet));
            if !done {
                node += 1;
            }
        }
    }

    /// Drops records, with the lengths around them repaired.
    fn drop_records(&mut self) {
        self.at_records(|tree, node| {
            let node = &tree.nodes[node];
            Some(splice(tree, node.parent, node.place, node.end, &[]))
        });
    }

    /// Puts a record's first or last child in its place.
    fn lift_records(&mut self) {
        for last in [false, true] {
            self.at_records(|tree, node| {
                let node = &tree.nodes[node];
                let child = if last {
                    node.children.last()
                } else {
                    node.children.first()
                };
                let child = &tree.nodes[*child?];
                let lifted = &tree.bytes[child.place..child.end];
                Some(splice(tree, node.parent, node.place, node.end, lifted))
            });
        }
    }

    /// Drops entries of lists, with the lengths and counts repaired.
    fn drop_entries(&mut self) {
        let mut number = 0;
        while let Some(sheet) = self.without_entry(number) {
            if !self.try_sheet(sheet) {
                number += 1;
            }
        }
    }

    /// The current sheet without one of the entries of its lists.
    fn without_entry(&self, number: usize) -> Option<Vec<u8>> {
        let tree = parse::parse(&self.case.sheet, self.root);
        let mut all = (0..tree.nodes.len()).flat_map(|node| entries(&tree, node));
        let entry = all.nth(number)?;
        let mut sheet = splice(&tree, Some(entry.node), entry.from, entry.to, &[]);
        if let Some(place) = entry.count {
            let count = u16::from_le_bytes([sheet[place], sheet[place + 1]]) - 1;
            sheet[place..place + 2].copy_from_slice(&count.to_le_bytes());
        }
        Some(sheet)
    }

    /// Drops runs of bytes, long ones first, with and without repair of the
    /// lengths around them.
    fn drop_bytes(&mut self) {
        let mut size = self.case.sheet.len() / 2;
        while size > 0 {
            let mut from = 0;
            while from + size <= self.case.sheet.len() {
                let mut plain = self.case.sheet.clone();
                plain.drain(from..from + size);
                let repaired = self.without_bytes(from, from + size);
                if !self.try_sheet(repaired) && !self.try_sheet(plain) {
                    from += size;
                }
            }
            size /= 2;
        }
    }

    /// The current sheet without some bytes, where the records that hold all
    /// of them keep right lengths.
    fn without_bytes(&self, from: usize, to: usize) -> Vec<u8> {
        let tree = parse::parse(&self.case.sheet, self.root);
        let holds = |node: &parse::Node| node.place + HEADER <= from && to <= node.end;
        let innermost = tree.nodes.iter().rposition(holds);
        splice(&tree, innermost, from, to, &[])
    }

    /// Lowers bytes one by one.
    fn lower_bytes(&mut self) {
        for place in 0..self.case.sheet.len() {
            let old = self.case.sheet[place];
            for new in [0, old / 2, old.saturating_sub(1)] {
                if new >= self.case.sheet[place] {
                    continue;
                }
                let mut sheet = self.case.sheet.clone();
                sheet[place] = new;
                self.try_sheet(sheet);
            }
        }
    }
}
