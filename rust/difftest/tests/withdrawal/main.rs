//! The withdrawal page: list, withdraw and page, the library against the
//! reference, and both against what paper 01 says.

mod buffers;
mod chains;
mod demand;
mod links;
mod page;
mod periods;
mod random;
mod stores;
mod tally;
