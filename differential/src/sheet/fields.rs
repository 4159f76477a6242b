//! Reads the fields of one record of a checked sheet, in order.

use super::parse::{Node, Tree, HEADER};
use crate::ir::{BlockId, FunctionId, IrType, LocalId, ValueId};
use crate::names::{self, ABSENT};

/// A position within the fields of a record.
pub struct Fields<'a> {
    bytes: &'a [u8],
    at: usize,
    end: usize,
}

impl<'a> Fields<'a> {
    /// The fields of a node, from the first one on.
    pub fn of(tree: &Tree<'a>, node: &Node) -> Self {
        Fields {
            bytes: tree.bytes,
            at: node.place + HEADER,
            end: node.end,
        }
    }

    /// Whether the record ends here: how a list without a count ends.
    pub fn at_end(&self) -> bool {
        self.at >= self.end
    }

    fn take<const SIZE: usize>(&mut self) -> [u8; SIZE] {
        let taken = self.bytes[self.at..self.at + SIZE].try_into().unwrap();
        self.at += SIZE;
        taken
    }

    pub fn u16(&mut self) -> u16 {
        u16::from_le_bytes(self.take())
    }

    pub fn u64(&mut self) -> u64 {
        u64::from_le_bytes(self.take())
    }

    pub fn i32(&mut self) -> i32 {
        i32::from_le_bytes(self.take())
    }

    pub fn i64(&mut self) -> i64 {
        i64::from_le_bytes(self.take())
    }

    pub fn name(&mut self) -> String {
        names::text(self.u16())
    }

    /// A name, or none for 65,535.
    pub fn name_or_absent(&mut self) -> Option<String> {
        match self.u16() {
            ABSENT => None,
            number => Some(names::text(number)),
        }
    }

    pub fn value(&mut self) -> ValueId {
        ValueId(u32::from(self.u16()))
    }

    /// A value id, or none for 65,535.
    pub fn value_or_absent(&mut self) -> Option<ValueId> {
        match self.u16() {
            ABSENT => None,
            id => Some(ValueId(u32::from(id))),
        }
    }

    /// The value ids up to the end of the record.
    pub fn values(&mut self) -> Vec<ValueId> {
        let mut values = Vec::new();
        while !self.at_end() {
            values.push(self.value());
        }
        values
    }

    pub fn block(&mut self) -> BlockId {
        BlockId(u32::from(self.u16()))
    }

    pub fn function(&mut self) -> FunctionId {
        FunctionId(u32::from(self.u16()))
    }

    pub fn local(&mut self) -> LocalId {
        LocalId(u32::from(self.u16()))
    }

    pub fn ir_type(&mut self) -> IrType {
        let tag = self.u16();
        let name = self.u16();
        match tag {
            0 => IrType::U64,
            1 => IrType::Bool,
            2 => IrType::Field,
            3 => IrType::Struct(names::text(name)),
            _ => IrType::Void,
        }
    }
}
