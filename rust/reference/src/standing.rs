//! Which stored certificates stand (document 01, "How a chain is walked").

use crate::constants::{BAD_CALL, BAD_STORE, SLOTS, STATE_EMPTY, STORE_LENGTH, WITHDRAWN};
use crate::decode::decode;
use crate::record::Record;
use crate::store::{slots, state};
use crate::validity::store_is_valid;
use crate::walk::{check_state_and_second, climb};

/// Gives n: the slots of the certificates that stand at the second, ascending, are the list's first
/// n octets, and the others stay. A refusal leaves the list.
pub fn standing(store: &[u8], second: u32, list: &mut [u8]) -> Result<usize, u8> {
    if store.len() != STORE_LENGTH || list.len() < SLOTS {
        return Err(BAD_CALL);
    }
    if !store_is_valid(store) {
        return Err(BAD_STORE);
    }
    let mut n = 0;
    for slot in 0..SLOTS {
        if stands(store, slot, second) {
            list[n] = slot as u8;
            n += 1;
        }
    }
    Ok(n)
}

/// "A stored certificate stands at a second if its walk, started at it without the signer-kind test
/// and without any position test, reaches a root." An empty slot does not stand.
pub fn stands(store: &[u8], slot: usize, second: u32) -> bool {
    reaches_a_root(store, slot, |certificate| {
        check_state_and_second(certificate, u64::from(second))
    })
}

/// The same in the store that the withdrawal of this id leaves.
pub(crate) fn stands_after(store: &[u8], slot: usize, second: u32, withdrawn: &[u8; 8]) -> bool {
    reaches_a_root(store, slot, |certificate| {
        if certificate.id == *withdrawn {
            return Err(WITHDRAWN);
        }
        check_state_and_second(certificate, u64::from(second))
    })
}

#[inline]
fn reaches_a_root(store: &[u8], slot: usize, check: impl Fn(&Record) -> Result<(), u8>) -> bool {
    match slots(store).get(slot) {
        Some(slot) if state(slot) != STATE_EMPTY => climb(store, &decode(slot), check).is_ok(),
        _ => false,
    }
}
