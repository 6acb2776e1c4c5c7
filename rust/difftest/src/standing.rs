//! Which certificates of a store stand, worked out from entries, without any
//! octets (paper 01, "How a chain is walked").

use crate::entry::{Entry, Slots, WITHDRAWN};
use crate::expect;
use crate::plan::{Rectangle, ROOT};
use crate::slot::SLOTS;

/// How many certificates a chain may have.
pub const MOST_CERTIFICATES: usize = 8;
/// The refusal of a chain that has more.
pub const CHAIN_TOO_LONG: u8 = 18;

/// A latitude and a longitude.
pub type Place = (i32, i32);

/// When and where; without a place no position is tested.
#[derive(Clone, Copy)]
pub struct When {
    pub second: u64,
    pub place: Option<Place>,
}

/// The walk from a certificate up to a root, without the signer-kind test and
/// without a position: how many certificates it passes, or why it stops.
pub fn walk(slots: &Slots, certificate: &Entry, second: u32) -> Result<usize, u8> {
    let when = When {
        second: second.into(),
        place: None,
    };
    climb(slots, certificate, when, 1)
}

/// The walk from a certificate, stored or not, that is the `count`th of the
/// chain.
pub fn climb(slots: &Slots, certificate: &Entry, when: When, count: usize) -> Result<usize, u8> {
    if certificate.state == WITHDRAWN {
        return Err(8);
    }
    if when.second < certificate.start.into() || when.second >= certificate.end {
        return Err(12);
    }
    if when.place.is_some_and(|place| !holds(certificate, place)) {
        return Err(13);
    }
    if certificate.kind == ROOT {
        return Ok(count);
    }
    if count == MOST_CERTIFICATES {
        return Err(CHAIN_TOO_LONG);
    }
    let issuer = expect::find(slots, certificate.issuer).ok_or(7)?;
    expect::issued(certificate, issuer)?;
    climb(slots, issuer, when, count + 1)
}

/// The certificates from one upward, itself first, as far as issuers are
/// stored; without end in a ring.
pub fn upward<'a>(slots: &'a Slots, certificate: &'a Entry) -> impl Iterator<Item = &'a Entry> {
    let above = |entry: &&'a Entry| match entry.kind {
        ROOT => None,
        _ => expect::find(slots, entry.issuer),
    };
    std::iter::successors(Some(certificate), above)
}

/// The certificates from one upward; more than a store has, in a ring.
pub fn chain<'a>(slots: &'a Slots, certificate: &'a Entry) -> impl Iterator<Item = &'a Entry> {
    upward(slots, certificate).take(SLOTS + 1)
}

/// Whether a certificate stands, and in which chain, or why not; for counts.
pub fn told(slots: &Slots, certificate: &Entry, second: u32) -> String {
    let period = u64::from(certificate.start)..certificate.end;
    match walk(slots, certificate, second) {
        Ok(length) => format!("stands in a chain of {length}"),
        Err(CHAIN_TOO_LONG) => too_long(chain(slots, certificate).count()),
        Err(12) if period.contains(&second.into()) => "does not stand, 12 further up".into(),
        Err(12) => "does not stand, 12 at the second".into(),
        Err(number) => format!("does not stand, {number}"),
    }
}

fn too_long(length: usize) -> String {
    let which = match length {
        ..=9 => "a chain of 9",
        10..=12 => "a chain of 10 to 12",
        13..=SLOTS => "a longer chain",
        _ => "a ring",
    };
    format!("does not stand, 18 in {which}")
}

/// "Edges belong to it"; no rectangles are everywhere.
fn holds(certificate: &Entry, (latitude, longitude): Place) -> bool {
    let inside = |&[north, west, south, east]: &Rectangle| {
        (south..=north).contains(&latitude) && (west..=east).contains(&longitude)
    };
    certificate.rectangles.is_empty() || certificate.rectangles.iter().any(inside)
}

/// Whether each slot holds a certificate that stands.
pub fn standing(slots: &Slots, second: u32) -> [bool; SLOTS] {
    let stands = |entry: &Entry| walk(slots, entry, second).is_ok();
    std::array::from_fn(|slot| slots[slot].as_ref().is_some_and(stands))
}

/// The slots that stand before the withdrawal of one of them and not after.
pub fn fallen(slots: &Slots, withdrawn: usize, second: u32) -> Vec<u8> {
    let mut after = slots.clone();
    if let Some(entry) = &mut after[withdrawn] {
        entry.state = WITHDRAWN;
    }
    let (before, after) = (standing(slots, second), standing(&after, second));
    let fell = |slot: &u8| before[usize::from(*slot)] && !after[usize::from(*slot)];
    (0..SLOTS as u8).filter(fell).collect()
}
