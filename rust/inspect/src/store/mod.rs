//! The slots of a store. What a slot of a valid store holds is the library's
//! word. Where it stands, and everything about a bad store, is this tool's own
//! reading, for display and explanation only.

mod bits;
pub mod layout;
mod record;
mod rules;
pub mod scope;
mod slots;

pub use record::{Record, HELD, WITHDRAWN};
pub use rules::{first_broken, Broken};
pub use slots::Slots;
