//! Whether a store keeps the rules of document 01, "The store".

use crate::constants::{
    AUTHORITY, LATEST_END, LATITUDE_LIMIT, LONGITUDE_LIMIT, ROOT, STATE_EMPTY, STATE_HELD,
    STATE_WITHDRAWN, STORE_LENGTH, TICKET,
};
use crate::decode::rectangle_at;
use crate::ids::Ids;
use crate::layout::*;
use crate::store::{slots, state, Slot};
use crate::unused::{
    is_all_zero, name_room_is_zero, permission_room_is_zero, rectangle_room_is_zero,
};

/// "A store is bad (2) if a field breaks these rules or the certificate's ranges and counts, an end
/// is above the latest end, or two filled slots share an id. A store of the right length that isn't
/// bad is valid."
pub fn store_is_valid(store: &[u8]) -> bool {
    if store.len() != STORE_LENGTH {
        return false;
    }
    let mut ids = Ids::new();
    slots(store).iter().all(|slot| match state(slot) {
        STATE_EMPTY => is_all_zero(slot),
        STATE_HELD | STATE_WITHDRAWN => {
            filled_slot_is_valid(slot) && ids.add(field_64(slot, ID_AT))
        }
        _ => false,
    })
}

/// The rules of one filled slot, of whatever state.
#[inline(always)]
fn filled_slot_is_valid(slot: &Slot) -> bool {
    let name_length = field(slot, NAME_LENGTH_AT, NAME_LENGTH_BITS) as usize;
    let rectangle_count = field(slot, RECTANGLE_COUNT_AT, RECTANGLE_COUNT_BITS) as usize;
    let permission_count = field(slot, PERMISSION_COUNT_AT, PERMISSION_COUNT_BITS) as usize;
    kind_is_valid(slot)
        && period_is_valid(slot)
        && name_room_is_zero(slot, name_length)
        && rectangle_room_is_zero(slot, rectangle_count)
        && (0..rectangle_count).all(|number| rectangle_is_valid(slot, number))
        && permission_room_is_zero(slot, permission_count)
}

/// "Kinds read: 1 ticket, 2 authority, 4 root"; "issuer 64 (zero for a root)".
#[inline(always)]
fn kind_is_valid(slot: &Slot) -> bool {
    match field(slot, KIND_AT, KIND_BITS) as u8 {
        TICKET | AUTHORITY => true,
        ROOT => field_64(slot, ISSUER_AT) == 0,
        _ => false,
    }
}

/// "Start must be below end"; "an end is above the latest end".
#[inline(always)]
fn period_is_valid(slot: &Slot) -> bool {
    let start = field(slot, START_AT, START_BITS);
    let end = field(slot, END_AT, END_BITS);
    start < end && end <= LATEST_END
}

/// "North must exceed south, and the east edge the west edge", all within the ranges of places.
#[inline(always)]
fn rectangle_is_valid(slot: &Slot, number: usize) -> bool {
    let rectangle = rectangle_at(slot, number);
    rectangle.north <= LATITUDE_LIMIT
        && rectangle.north > rectangle.south
        && rectangle.south >= -LATITUDE_LIMIT
        && rectangle.east <= LONGITUDE_LIMIT
        && rectangle.east > rectangle.west
        && rectangle.west >= -LONGITUDE_LIMIT
}
