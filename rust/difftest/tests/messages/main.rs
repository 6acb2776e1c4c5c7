//! Signed messages: prepare and decide, the library against the reference, and
//! both against what paper 01 says.

mod accepted;
mod broken_layouts;
mod by_hand;
mod chains;
mod check;
mod copies;
mod exhaustive;
mod floors;
mod headers;
mod lacking;
mod order;
mod permissions;
mod positions;
mod random;
mod reasons;
mod tally;
mod times;
mod verdicts;
