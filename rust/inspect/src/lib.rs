//! `nattveldi-inspect`: certificates, messages and stores in readable form, and
//! decisions step by step.
//!
//! Every verdict that it prints is the proved library's, and so is what the
//! slots of a valid store hold. What it reads by itself ([`reading`], the layout
//! and the rules in [`store`]) and how it explains ([`explain`]) is for display
//! only, and is held against what the library says each time.

#![forbid(unsafe_code)]

pub mod arguments;
pub mod example;
pub mod explain;
pub mod fact;
pub mod file;
pub mod help;
pub mod input;
pub mod json;
pub mod output;
pub mod proved;
pub mod reading;
pub mod run;
pub mod several;
pub mod show;
pub mod store;
pub mod styles;
pub mod text;
pub mod verdict;
