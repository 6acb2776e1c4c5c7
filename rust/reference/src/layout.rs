//! Where a record's fields stand in its slot (document 01, "The store").
//!
//! "64 slots of 212, bit-packed, most significant first: id 64, issuer 64 (zero for a root), state
//! 2, kind 3, start 32, end 38, name length 6, name 256, key parity 1 (point type less 2), key 256,
//! rectangle count 3, rectangles 4 × 128, permission count 5, permissions 16 × 28, padding 6."

use crate::constants::{MAXIMUM_NAME, MAXIMUM_PERMISSIONS, MAXIMUM_RECTANGLES, SLOT_LENGTH};
use crate::store::Slot;

pub(crate) const ID_BITS: usize = 64;
pub(crate) const STATE_BITS: usize = 2;
pub(crate) const KIND_BITS: usize = 3;
pub(crate) const START_BITS: usize = 32;
pub(crate) const END_BITS: usize = 38;
pub(crate) const NAME_LENGTH_BITS: usize = 6;
pub(crate) const NAME_BITS: usize = 8 * MAXIMUM_NAME;
pub(crate) const PARITY_BITS: usize = 1;
pub(crate) const KEY_BITS: usize = 256;
pub(crate) const RECTANGLE_COUNT_BITS: usize = 3;
pub(crate) const EDGE_BITS: usize = 32;
pub(crate) const RECTANGLE_BITS: usize = 4 * EDGE_BITS;
pub(crate) const PERMISSION_COUNT_BITS: usize = 5;
pub(crate) const PERMISSION_BITS: usize = 28;
const PADDING_BITS: usize = 6;

// The bit at which each field begins, counted from the slot's first.
pub(crate) const ID_AT: usize = 0;
pub(crate) const ISSUER_AT: usize = ID_AT + ID_BITS;
pub(crate) const STATE_AT: usize = ISSUER_AT + ID_BITS;
pub(crate) const KIND_AT: usize = STATE_AT + STATE_BITS;
pub(crate) const START_AT: usize = KIND_AT + KIND_BITS;
pub(crate) const END_AT: usize = START_AT + START_BITS;
pub(crate) const NAME_LENGTH_AT: usize = END_AT + END_BITS;
pub(crate) const NAME_AT: usize = NAME_LENGTH_AT + NAME_LENGTH_BITS;
pub(crate) const PARITY_AT: usize = NAME_AT + NAME_BITS;
pub(crate) const KEY_AT: usize = PARITY_AT + PARITY_BITS;
pub(crate) const RECTANGLE_COUNT_AT: usize = KEY_AT + KEY_BITS;
pub(crate) const RECTANGLES_AT: usize = RECTANGLE_COUNT_AT + RECTANGLE_COUNT_BITS;
pub(crate) const PERMISSION_COUNT_AT: usize = RECTANGLES_AT + MAXIMUM_RECTANGLES * RECTANGLE_BITS;
pub(crate) const PERMISSIONS_AT: usize = PERMISSION_COUNT_AT + PERMISSION_COUNT_BITS;
pub(crate) const PADDING_AT: usize = PERMISSIONS_AT + MAXIMUM_PERMISSIONS * PERMISSION_BITS;
pub(crate) const SLOT_BITS: usize = PADDING_AT + PADDING_BITS;
const _: () = assert!(SLOT_BITS == 8 * SLOT_LENGTH);

/// The eight octets from `octet` on, as a big-endian number.
#[inline(always)]
fn word(slot: &Slot, octet: usize) -> u64 {
    let mut octets = [0; 8];
    octets.copy_from_slice(&slot[octet..octet + 8]);
    u64::from_be_bytes(octets)
}

/// The field of `width` bits, at most 57, that begins at bit `at`.
#[inline(always)]
pub(crate) fn field(slot: &Slot, at: usize, width: usize) -> u64 {
    // The last fields of a slot are read from its last eight octets.
    let octet = (at / 8).min(SLOT_LENGTH - 8);
    word(slot, octet) << (at - 8 * octet) >> (64 - width)
}

/// The 64 bits that begin at bit `at`, with an octet or more of the slot behind them.
#[inline(always)]
pub(crate) fn field_64(slot: &Slot, at: usize) -> u64 {
    let (octet, shift) = (at / 8, at % 8);
    word(slot, octet) << shift | u64::from(slot[octet + 8]) >> (8 - shift)
}
