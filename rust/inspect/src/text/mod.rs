//! Values in words.

pub mod calendar;
pub mod count;
pub mod degrees;
pub mod hex;
pub mod its_aid;
pub mod kind;
pub mod name;
pub mod time;
