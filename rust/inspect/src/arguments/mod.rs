//! The command line.

mod orders;
mod style;
mod words;

use std::ffi::OsString;

pub use orders::parse;
pub use style::Style;

#[derive(Clone, Debug, PartialEq)]
pub enum Order {
    /// The help on everything or on one command.
    Help(String),
    Version,
    /// One file, or several with --each.
    Certificate(Vec<Source>),
    Message(Vec<Source>),
    Store {
        store: Source,
        at: Option<u32>,
    },
    Decide {
        store: Source,
        message: Source,
        asked: Asked,
    },
    Enter(Entry),
    List {
        store: Source,
        id: [u8; 8],
        at: u32,
    },
    Withdraw {
        store: Source,
        id: [u8; 8],
        target: Target,
    },
    Page(Source),
    Example(Example, Target),
}

/// What decide is asked beside store and message.
#[derive(Clone, Debug, PartialEq)]
pub struct Asked {
    pub now: Option<u64>,
    /// Latitude and longitude in tenths of a microdegree.
    pub position: Option<(i32, i32)>,
    pub age: u64,
    pub verdict: Option<u8>,
    pub certificate_verdict: Option<u8>,
}

/// Install, if a root is wanted, or admit.
#[derive(Clone, Debug, PartialEq)]
pub struct Entry {
    pub wants_root: bool,
    pub store: Source,
    pub certificate: Source,
    /// `None` is not given.
    pub verdict: Option<u8>,
    pub target: Target,
}

#[derive(Clone, Copy, Debug, PartialEq)]
pub enum Example {
    Root,
    Authority,
    Ticket,
    Store,
    MessageById,
    MessageWithCertificate,
}

/// Where octets come from.
#[derive(Clone, Debug, PartialEq)]
pub struct Source {
    /// `None` is standard input.
    pub file: Option<OsString>,
    /// `None` is seen from the octets.
    pub form: Option<Form>,
}

/// Where octets go to.
#[derive(Clone, Debug, Default, PartialEq)]
pub struct Target {
    pub file: Option<OsString>,
    /// `None` is the form of the store that is changed, hex text for an example.
    pub form: Option<Form>,
}

#[derive(Clone, Copy, Debug, PartialEq)]
pub enum Form {
    Raw,
    Hex,
}
