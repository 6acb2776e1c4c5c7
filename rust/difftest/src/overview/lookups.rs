//! Requests for what a slot holds, and what each side makes of them.

use nattveldi::raw::{self, ACCEPTED, STORED_LENGTH};
use nattveldi::{Id, Rectangle, Refusal, Store, Stored};

use super::layout;
use crate::buffers;
use crate::entry::Entry;
use crate::sides::Side;

/// A request for what a slot holds.
#[derive(Clone, Debug, PartialEq)]
pub struct Lookup {
    pub store: Vec<u8>,
    pub slot: u64,
}

/// The answer: the number, and the whole lent buffer after the call. In a
/// refusal the buffer is as it was.
#[derive(Clone, Debug, PartialEq, Eq)]
pub struct Found {
    pub number: u8,
    pub buffer: Vec<u8>,
}

impl Found {
    /// An answer that is written to the front of what is lent, if that is long
    /// enough.
    pub fn of(answer: Result<Entry, u8>, lent: &[u8]) -> Found {
        let mut buffer = lent.to_vec();
        let answer = match lent.len() {
            ..layout::LENGTH => Err(1),
            _ => answer,
        };
        if let Ok(entry) = &answer {
            buffer[..layout::LENGTH].copy_from_slice(&layout::octets(entry));
        }
        let number = answer.err().unwrap_or(ACCEPTED);
        Found { number, buffer }
    }
}

impl Lookup {
    /// A side's answer to a call that is lent a buffer. The request stays as it
    /// is.
    pub fn ask(&self, side: Side, lent: &[u8]) -> Found {
        match side {
            Side::Library => self.ask_library(lent),
            // The bindings lend a buffer of their own, which is never too short:
            // with a short one, only their raw function can be asked.
            Side::Bindings if lent.len() < STORED_LENGTH => self.ask_library(lent),
            Side::Bindings => Found::of(self.ask_bindings(), lent),
            Side::Reference => {
                let answer = reference::stored(&self.store, self.slot());
                Found::of(answer.map(|record| referred(&record)), lent)
            }
        }
    }

    fn ask_library(&self, lent: &[u8]) -> Found {
        let mut buffer = lent.to_vec();
        let number = buffers::unchanged(&self.store, |store| {
            raw::stored(store, self.slot(), &mut buffer)
        });
        Found { number, buffer }
    }

    fn ask_bindings(&self) -> Result<Entry, u8> {
        let answer = self.stored().map(|stored| bound(&stored));
        answer.map_err(Refusal::number)
    }

    /// A slot that no store has is refused before a bad store.
    fn stored(&self) -> Result<Stored, Refusal> {
        match Store::new().slot(self.slot()) {
            Err(Refusal::BadCall) => Err(Refusal::BadCall),
            _ => Store::from_octets(&self.store)?.slot(self.slot()),
        }
    }

    /// A number that the type of the call lacks is above 63, and so is this one.
    pub fn slot(&self) -> usize {
        usize::try_from(self.slot).unwrap_or(usize::MAX)
    }
}

/// What the bindings say that a slot holds.
fn bound(stored: &Stored) -> Entry {
    let edges = |r: &Rectangle| [r.north, r.west, r.south, r.east];
    Entry {
        id: stored.id.into(),
        issuer: stored.issuer.map(Id::into).unwrap_or_default(),
        state: stored.state as u8,
        kind: stored.kind as u8,
        start: stored.start.0,
        end: stored.end,
        name: stored.name.clone(),
        parity: stored.point_type as u8 - 2,
        key: stored.key,
        rectangles: stored.region.rectangles().iter().map(edges).collect(),
        permissions: stored.permissions.clone(),
    }
}

/// What the reference says that a slot holds.
fn referred(record: &reference::Record) -> Entry {
    let edges = |r: &reference::Rectangle| [r.north, r.west, r.south, r.east];
    Entry {
        id: record.id,
        issuer: record.issuer,
        state: record.state,
        kind: record.kind,
        start: record.start,
        end: record.end,
        name: record.name().to_vec(),
        parity: record.parity,
        key: record.key,
        rectangles: record.rectangles().iter().map(edges).collect(),
        permissions: record.permissions().to_vec(),
    }
}
