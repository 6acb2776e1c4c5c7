//! A slot's octets taken apart into a record.

use crate::certificate::Rectangle;
use crate::constants::{MAXIMUM_PERMISSIONS, MAXIMUM_RECTANGLES};
use crate::layout::*;
use crate::record::Record;
use crate::store::Slot;

/// The record that a slot's bits spell, whether or not they keep the rules of a store.
pub fn decode(slot: &Slot) -> Record {
    Record {
        id: field_64(slot, ID_AT).to_be_bytes(),
        issuer: field_64(slot, ISSUER_AT).to_be_bytes(),
        state: field(slot, STATE_AT, STATE_BITS) as u8,
        kind: field(slot, KIND_AT, KIND_BITS) as u8,
        start: field(slot, START_AT, START_BITS) as u32,
        end: field(slot, END_AT, END_BITS),
        name_length: field(slot, NAME_LENGTH_AT, NAME_LENGTH_BITS) as usize,
        name: octets_32(slot, NAME_AT),
        parity: field(slot, PARITY_AT, PARITY_BITS) as u8,
        key: octets_32(slot, KEY_AT),
        rectangle_count: field(slot, RECTANGLE_COUNT_AT, RECTANGLE_COUNT_BITS) as usize,
        rectangles: rectangles(slot),
        permission_count: field(slot, PERMISSION_COUNT_AT, PERMISSION_COUNT_BITS) as usize,
        permissions: permissions(slot),
    }
}

/// The 32 octets that begin at bit `at`: a name or a key.
#[inline(always)]
fn octets_32(slot: &Slot, at: usize) -> [u8; 32] {
    let mut octets = [0; 32];
    for (number, word) in octets.as_chunks_mut::<8>().0.iter_mut().enumerate() {
        *word = field_64(slot, at + 64 * number).to_be_bytes();
    }
    octets
}

#[inline(always)]
fn rectangles(slot: &Slot) -> [Rectangle; MAXIMUM_RECTANGLES] {
    let mut rectangles = [Rectangle::default(); MAXIMUM_RECTANGLES];
    for (number, rectangle) in rectangles.iter_mut().enumerate() {
        *rectangle = rectangle_at(slot, number);
    }
    rectangles
}

/// "Northwest then southeast", each "latitude, then longitude, 32-bit two's complement".
#[inline(always)]
pub(crate) fn rectangle_at(slot: &Slot, number: usize) -> Rectangle {
    let at = RECTANGLES_AT + number * RECTANGLE_BITS;
    let northwest = field_64(slot, at);
    let southeast = field_64(slot, at + 2 * EDGE_BITS);
    Rectangle {
        north: (northwest >> EDGE_BITS) as i32,
        west: northwest as i32,
        south: (southeast >> EDGE_BITS) as i32,
        east: southeast as i32,
    }
}

#[inline(always)]
fn permissions(slot: &Slot) -> [u32; MAXIMUM_PERMISSIONS] {
    let mut permissions = [0; MAXIMUM_PERMISSIONS];
    for (number, permission) in permissions.iter_mut().enumerate() {
        *permission = field(
            slot,
            PERMISSIONS_AT + number * PERMISSION_BITS,
            PERMISSION_BITS,
        ) as u32;
    }
    permissions
}
