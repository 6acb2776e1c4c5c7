//! What a store holds, slot by slot, and what of it stands.
//!
//! - [`lookups`] and [`standings`] ask a side; [`layout`] has the octets of
//!   what a slot holds.
//! - [`generate`] makes questions up, [`expect`] is the answer to them.

pub mod expect;
pub mod generate;
pub mod layout;
pub mod lookups;
pub mod standings;
