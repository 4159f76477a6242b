//! Documents 01 and 02 and their readings, held against the oracle, and the
//! driver held against faulty subjects.

mod analysis;
mod bench;
mod codec;
mod driver;
mod places;
mod proof_sheets;
mod raw;
mod readings_body;
mod readings_form;
mod readings_walk;
