//! Example certificates, messages and a store for trying things out. Their
//! signatures are placeholders: neither the library nor this tool computes one,
//! and the chip's verdict on a signature is an input.

mod annotate;
mod certificates;
mod messages;
mod stores;
mod writer;

pub use annotate::{certificate as certificate_text, message as message_text};
pub use annotate::{store as store_text, PLACEHOLDERS};
pub use certificates::{authority, root, ticket};
pub use messages::{by_id, with_certificate};
pub use stores::store;
