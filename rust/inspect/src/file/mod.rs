//! Files that are written whole or not at all: a temporary file in the same
//! folder is filled and synced, and then renamed over the file, under locks.

mod destination;
mod lock;
mod staged;

pub use destination::Destination;
pub use staged::Staged;
