//! Which stores are valid: the library against the reference, and both against
//! what paper 01 says of each rule.

mod flips;
mod judge;
mod pairs;
mod places;
mod rules;
mod stores;
