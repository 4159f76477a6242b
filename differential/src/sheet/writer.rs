//! Writes records.

use crate::names::{self, ABSENT};

/// A sheet under way.
#[derive(Default)]
pub struct Writer {
    pub bytes: Vec<u8>,
}

impl Writer {
    /// Writes a record of the given kind; `content` writes all that follows
    /// the kind.
    pub fn record(&mut self, kind: u16, content: impl FnOnce(&mut Writer)) {
        let place = self.bytes.len();
        self.bytes.extend([0; 4]);
        self.u16(kind);
        content(self);
        let length = (self.bytes.len() - place) as u32;
        self.bytes[place..place + 4].copy_from_slice(&length.to_le_bytes());
    }

    pub fn u16(&mut self, number: u16) {
        self.bytes.extend(number.to_le_bytes());
    }

    pub fn name(&mut self, text: &str) {
        self.u16(names::number(text));
    }

    /// A name, or 65,535.
    pub fn name_or_absent(&mut self, text: Option<&str>) {
        self.u16(text.map_or(ABSENT, names::number));
    }

    /// An id of a u32, which must be below 65,535.
    pub fn id(&mut self, id: u32) {
        assert!(id < u32::from(ABSENT), "id {id} does not fit a sheet");
        self.u16(id as u16);
    }

    /// A count of a counted list.
    pub fn count(&mut self, count: usize) {
        self.u16(u16::try_from(count).expect("a count fits u16"));
    }
}
