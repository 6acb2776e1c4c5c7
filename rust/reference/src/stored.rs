//! What a slot holds.

use crate::constants::{BAD_CALL, BAD_STORE, SLOTS, STATE_EMPTY, STORE_LENGTH, UNKNOWN};
use crate::decode::decode;
use crate::record::Record;
use crate::store::{slots, state};
use crate::validity::store_is_valid;

/// Everything that a filled slot holds, held or withdrawn; else "1 (store's length, slot above 63),
/// 2, 7 (the slot is empty)".
pub fn stored(store: &[u8], slot: usize) -> Result<Record, u8> {
    if store.len() != STORE_LENGTH || slot >= SLOTS {
        return Err(BAD_CALL);
    }
    if !store_is_valid(store) {
        return Err(BAD_STORE);
    }
    let slot = &slots(store)[slot];
    if state(slot) == STATE_EMPTY {
        return Err(UNKNOWN);
    }
    Ok(decode(slot))
}
