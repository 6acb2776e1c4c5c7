//! The rules of a store, and the first one that is broken.

use nattveldi::{Rectangle, Refusal};

use super::bits::{first_set, number};
use super::layout::*;
use super::record::rectangle;
use super::Slots;
use crate::reading::{MOST_LATITUDE, MOST_LONGITUDE};

/// 4,294,967,295 + 8,191 × 31,556,925 (document 01, "Numbers").
const LATEST_END: u64 = 262_777_739_970;

/// A broken rule, and the first bit of the field that breaks it.
#[derive(Clone, Debug, PartialEq, Eq)]
pub struct Broken {
    pub slot: usize,
    pub bit: usize,
    pub rule: String,
}

impl Broken {
    /// The number that a store with a broken rule is refused by.
    pub fn number(&self) -> u8 {
        Refusal::BadStore.number()
    }

    pub fn offset(&self) -> usize {
        SLOT_LENGTH * self.slot + self.bit / 8
    }
}

/// Slot by slot in the order of the fields, then ids that two slots share.
pub fn first_broken(store: &[u8]) -> Option<Broken> {
    let slots = store.chunks_exact(SLOT_LENGTH).enumerate();
    let mut broken = slots.filter_map(|(slot, octets)| {
        let (bit, rule) = broken_in(octets)?;
        Some(Broken { slot, bit, rule })
    });
    broken.next().or_else(|| shared_id(store))
}

fn shared_id(store: &[u8]) -> Option<Broken> {
    let slots = Slots::own_reading(store);
    let shared = slots.iter().find_map(|(slot, record)| {
        let (first, _) = slots.find(&record.id)?;
        (first != slot).then_some((first, slot))
    });
    shared.map(|(first, slot)| Broken {
        slot,
        bit: ID.bit,
        rule: format!("slots {first} and {slot} share an id"),
    })
}

fn broken_in(slot: &[u8]) -> Option<(usize, String)> {
    // Most slots are empty, and octets are faster to look at than bits.
    if slot.iter().all(|&octet| octet == 0) {
        return None;
    }
    match number(slot, STATE.bit, STATE.width) {
        0 => {
            let bit = first_set(slot, 0, SLOT_BITS)?;
            Some((bit, "a slot of state 0, empty, is not all zero".to_string()))
        }
        3 => Some((STATE.bit, "there is no state 3".to_string())),
        _ => kind(slot)
            .or_else(|| period(slot))
            .or_else(|| name(slot))
            .or_else(|| region(slot))
            .or_else(|| permissions(slot))
            .or_else(|| unused(slot, PADDING, 0, "padding")),
    }
}

fn kind(slot: &[u8]) -> Option<(usize, String)> {
    let kind = number(slot, KIND.bit, KIND.width);
    if !matches!(kind, 1 | 2 | 4) {
        return Some((KIND.bit, format!("kind {kind} is none of 1, 2 and 4")));
    }
    let issued = first_set(slot, ISSUER.bit, ISSUER.end()).is_some();
    let rule = "the issuer of a root is not zero";
    (kind == 4 && issued).then(|| (ISSUER.bit, rule.to_string()))
}

fn period(slot: &[u8]) -> Option<(usize, String)> {
    let start = number(slot, START.bit, START.width);
    let end = number(slot, END.bit, END.width);
    if start >= end {
        return Some((END.bit, format!("start {start} is not below end {end}")));
    }
    let rule = format!("end {end} is above the latest, {LATEST_END}");
    (end > LATEST_END).then_some((END.bit, rule))
}

fn name(slot: &[u8]) -> Option<(usize, String)> {
    let length = number(slot, NAME_LENGTH.bit, NAME_LENGTH.width) as usize;
    if length > NAME.count {
        return Some((NAME_LENGTH.bit, format!("a name of {length} octets")));
    }
    unused(slot, NAME, length, "name")
}

fn region(slot: &[u8]) -> Option<(usize, String)> {
    let count = number(slot, RECTANGLE_COUNT.bit, RECTANGLE_COUNT.width) as usize;
    if count > RECTANGLES.count {
        return Some((RECTANGLE_COUNT.bit, format!("{count} rectangles")));
    }
    let bad = (0..count).find(|&i| !is_good(&rectangle(slot, i)));
    if let Some(index) = bad {
        let rule = format!("rectangle {index} is out of range, or its edges are out of order");
        return Some((RECTANGLES.of(index), rule));
    }
    unused(slot, RECTANGLES, count, "rectangles")
}

fn is_good(r: &Rectangle) -> bool {
    let latitudes = -MOST_LATITUDE <= r.south && r.south < r.north && r.north <= MOST_LATITUDE;
    let longitudes = -MOST_LONGITUDE <= r.west && r.west < r.east && r.east <= MOST_LONGITUDE;
    latitudes && longitudes
}

fn permissions(slot: &[u8]) -> Option<(usize, String)> {
    let count = number(slot, PERMISSION_COUNT.bit, PERMISSION_COUNT.width) as usize;
    if count > PERMISSIONS.count {
        return Some((PERMISSION_COUNT.bit, format!("{count} permissions")));
    }
    unused(slot, PERMISSIONS, count, "permissions")
}

/// Unused room is zero.
fn unused(slot: &[u8], place: Place, used: usize, what: &str) -> Option<(usize, String)> {
    let bit = first_set(slot, place.of(used), place.end())?;
    Some((bit, format!("unused room of the {what} is not zero")))
}
