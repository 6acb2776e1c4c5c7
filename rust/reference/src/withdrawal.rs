//! The withdrawal page's list, and the withdrawal (document 01, "Order of checks").

use crate::constants::{
    BAD_CALL, BAD_STORE, SLOTS, STATE_WITHDRAWN, STORE_LENGTH, UNKNOWN, WITHDRAWN,
};
use crate::standing::{stands, stands_after};
use crate::store::{find, set_state, slots, state};
use crate::validity::store_is_valid;

/// Gives n. "The list's first n octets are slot numbers; the others stay": the certificates that
/// stand at the second before the withdrawal of this id and not after it. A refusal leaves the list.
pub fn list(store: &[u8], id: &[u8], second: u32, list: &mut [u8]) -> Result<usize, u8> {
    if list.len() < SLOTS {
        return Err(BAD_CALL);
    }
    let (id, _) = find_held(store, id)?;
    let mut n = 0;
    for slot in 0..SLOTS {
        if stands(store, slot, second) && !stands_after(store, slot, second, id) {
            list[n] = slot as u8;
            n += 1;
        }
    }
    Ok(n)
}

/// Withdraws a certificate for good; of the store, its two bits of state alone change.
pub fn withdraw(store: &mut [u8], id: &[u8]) -> Result<(), u8> {
    let (_, slot) = find_held(store, id)?;
    set_state(&mut store.as_chunks_mut().0[slot], STATE_WITHDRAWN);
    Ok(())
}

/// "1 (store length, id not 8 octets, list under 64 octets), 2, 7, 8", but for the list; gives the
/// id and the number of its slot.
fn find_held<'a>(store: &[u8], id: &'a [u8]) -> Result<(&'a [u8; 8], usize), u8> {
    if store.len() != STORE_LENGTH {
        return Err(BAD_CALL);
    }
    let id = id.try_into().map_err(|_| BAD_CALL)?;
    if !store_is_valid(store) {
        return Err(BAD_STORE);
    }
    let slot = find(store, id).ok_or(UNKNOWN)?;
    if state(&slots(store)[slot]) == STATE_WITHDRAWN {
        return Err(WITHDRAWN);
    }
    Ok((id, slot))
}
