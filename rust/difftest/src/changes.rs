//! Requests that change a store, and what each side makes of them.

use nattveldi::raw::{self, ACCEPTED};
use nattveldi::{Refusal, Store};

use crate::sides::Side;

#[derive(Clone, Copy, Debug, PartialEq, Eq, PartialOrd, Ord)]
pub enum Operation {
    Install,
    Admit,
}

/// A request to put a certificate into a store.
#[derive(Clone, Debug, PartialEq)]
pub struct Change {
    pub operation: Operation,
    pub store: Vec<u8>,
    pub certificate: Vec<u8>,
    pub verdict: u8,
}

/// The answer: the number, and the store after the call.
#[derive(Clone, Debug, PartialEq, Eq)]
pub struct Changed {
    pub number: u8,
    pub store: Vec<u8>,
}

type Call = fn(&mut [u8], &[u8], u8) -> u8;

impl Change {
    /// A side's answer. The request stays as it is.
    pub fn ask(&self, side: Side) -> Changed {
        let call = call(side, self.operation);
        let mut store = self.store.clone();
        let number = call(&mut store, &self.certificate, self.verdict);
        Changed { number, store }
    }
}

fn call(side: Side, operation: Operation) -> Call {
    match (side, operation) {
        (Side::Library, Operation::Install) => raw::install,
        (Side::Library, Operation::Admit) => raw::admit,
        (Side::Bindings, Operation::Install) => |s, c, v| bound(s, |s| s.install(c, v.into())),
        (Side::Bindings, Operation::Admit) => |s, c, v| bound(s, |s| s.admit(c, v.into())),
        (Side::Reference, Operation::Install) => reference::install,
        (Side::Reference, Operation::Admit) => reference::admit,
    }
}

/// What the bindings make of octets, if these are a store.
pub(crate) fn bound(
    octets: &mut [u8],
    change: impl FnOnce(&mut Store) -> Result<(), Refusal>,
) -> u8 {
    let changed = Store::from_octets(octets).and_then(|mut store| {
        let result = change(&mut store);
        octets.copy_from_slice(store.as_octets());
        result
    });
    changed.err().map_or(ACCEPTED, Refusal::number)
}
