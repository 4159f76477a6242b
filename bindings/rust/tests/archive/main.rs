//! The archive, as it is linked, called by the crate's functions.

mod accepted;
mod header;
mod refusals;
mod sheets;
