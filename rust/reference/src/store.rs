//! A store as its slots (document 01, "The store").

use crate::constants::{SLOTS, SLOT_LENGTH, STATE_EMPTY, STORE_LENGTH};

/// "64 slots of 212"
pub type Slot = [u8; SLOT_LENGTH];

const _: () = assert!(SLOTS * SLOT_LENGTH == STORE_LENGTH);

/// The octet whose two top bits are the state, behind id and issuer.
const STATE_OCTET: usize = 16;

/// The slots of a store, lowest first.
pub fn slots(store: &[u8]) -> &[Slot] {
    store.as_chunks().0
}

/// "State 0 empty, 1 held, 2 withdrawn."
#[inline]
pub(crate) fn state(slot: &Slot) -> u8 {
    slot[STATE_OCTET] >> 6
}

/// Changes the two bits of the state alone.
pub(crate) fn set_state(slot: &mut Slot, state: u8) {
    slot[STATE_OCTET] = state << 6 | slot[STATE_OCTET] & 0x3f;
}

/// The number of the filled slot with this id. "A withdrawn slot stays filled for good"; an empty
/// one is never found, not by the id zero either.
pub fn find(store: &[u8], id: &[u8; 8]) -> Option<usize> {
    slots(store)
        .iter()
        .position(|slot| slot.first_chunk() == Some(id) && state(slot) != STATE_EMPTY)
}

/// "The lowest empty slot"
pub(crate) fn lowest_empty(store: &mut [u8]) -> Option<&mut Slot> {
    let (slots, _) = store.as_chunks_mut();
    slots.iter_mut().find(|slot| state(slot) == STATE_EMPTY)
}
