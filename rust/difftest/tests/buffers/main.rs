//! What the library does with the caller's buffers.

mod certificates;
mod judging;
mod messages;
