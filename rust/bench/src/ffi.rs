//! Proved functions that have an archive for this benchmark only. All unsafe
//! code stands here.

pub mod sha256;
pub mod store;
