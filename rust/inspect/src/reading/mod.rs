//! This tool's own reading of certificates and messages, for display only.
//!
//! It follows document 01 and notes each field with its offset. No verdict that
//! the program prints comes from here; the number of a [`Fault`] is compared
//! with the library's, and an offset is printed only where both agree.

mod attributes;
mod certificate;
mod cursor;
mod headers;
mod message;
mod numbers;
mod points;
mod restrictions;

pub use certificate::certificate;
pub use message::{message, Message, Signer};
pub use numbers::{MOST_LATITUDE, MOST_LONGITUDE};

use crate::fact::Fact;

/// The numbers by which a reading refuses.
pub mod number {
    pub const TOO_LONG: u8 = 3;
    pub const CUT: u8 = 4;
    pub const MALFORMED: u8 = 5;
    pub const UNSUPPORTED: u8 = 6;
}

/// A field as it stands in the octets.
#[derive(Clone, Debug, PartialEq, Eq)]
pub struct Field {
    /// The offset of its first octet.
    pub offset: usize,
    /// How many octets it has.
    pub length: usize,
    /// How many structures hold it.
    pub depth: usize,
    /// Its name in the standard.
    pub name: &'static str,
    /// What it says.
    pub value: Fact,
}

/// The first fault.
#[derive(Clone, Debug, PartialEq, Eq)]
pub struct Fault {
    pub number: u8,
    /// The octet at which it counts, or the end of the input.
    pub offset: usize,
    pub reason: String,
}

/// The fields up to the first fault, and what they say.
#[derive(Clone, Debug)]
pub struct Reading<T> {
    pub fields: Vec<Field>,
    pub outcome: Result<T, Fault>,
}

impl<T> Reading<T> {
    /// The number that this reading arrives at, 0 without a fault.
    pub fn number(&self) -> u8 {
        self.outcome.as_ref().err().map_or(0, |fault| fault.number)
    }
}
