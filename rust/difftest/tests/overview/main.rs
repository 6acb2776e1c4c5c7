//! What a store holds and what of it stands: the library against the reference,
//! and both against what paper 01 says.

mod asking;
mod buffers;
mod chains;
mod entering;
mod exhaustive;
mod pages;
mod random;
mod slots;
mod tally;
