//! An independent second reader of road certificates and messages, to test the proved library
//! against.
//!
//! Written from ETSI TS 103 097 V1.2.1 ("001" in comments) and document 01 alone. A refusal is its
//! number in document 01 (see [`constants`]); parts are places in the caller's octets.

#![forbid(unsafe_code)]

mod admission;
mod certificate;
mod checks;
pub mod constants;
mod decision;
mod decode;
mod encode;
mod headers;
mod ids;
mod issue;
mod layout;
mod message;
mod numbers;
mod octets;
mod page;
mod questions;
mod record;
mod sha256;
mod signature;
mod standing;
mod store;
mod stored;
mod unused;
mod validity;
mod walk;
mod withdrawal;

pub use admission::{admit, install};
pub use certificate::{id, read, Certificate, Permission, Rectangle};
pub use checks::Call;
pub use constants::{SLOTS, SLOT_LENGTH, STORE_LENGTH};
pub use decision::{decide, Decision};
pub use decode::decode;
pub use encode::encode;
pub use issue::is_issued_by;
pub use octets::Part;
pub use page::page;
pub use questions::{prepare, Prepared, Question};
pub use record::Record;
pub use sha256::sha256;
pub use standing::{standing, stands};
pub use store::{find, slots, Slot};
pub use stored::stored;
pub use validity::store_is_valid;
pub use walk::walk;
pub use withdrawal::{list, withdraw};
