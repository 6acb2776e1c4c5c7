//! What the program gives.

use std::io::{self, Write};

use crate::file::Staged;
use crate::styles::Styles;

/// For standard output, for standard error, and for a file; and whether the
/// library accepted.
#[derive(Default)]
pub struct Outcome {
    pub out: Vec<u8>,
    /// The same as `--json` and `--quiet` want it; help and version have no other
    /// style.
    pub styles: Option<Styles>,
    pub remark: Option<String>,
    /// Inputs that could not be read, where there are others.
    pub faults: Vec<String>,
    pub staged: Option<Staged>,
    pub accepted: bool,
}

/// A line on standard error. If that cannot be written, the exit status is left
/// to tell of a fault.
pub fn remark(text: &str) {
    let _ = writeln!(io::stderr(), "nattveldi-inspect: {text}");
}
