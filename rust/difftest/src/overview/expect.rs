//! The answers that paper 01 and the C interface give, worked out from what a
//! store holds.

use super::lookups::{Found, Lookup};
use super::standings::Standing;
use crate::entry::Entry;
use crate::lists::Listed;
use crate::outcome::Contents;
use crate::slot::{SLOTS, STORE_LENGTH};
use crate::standing;

/// "1 (store's length, slot above 63), 2, 7 (the slot is empty); else 0 with
/// everything the slot holds."
pub fn stored(contents: &Contents, request: &Lookup, lent: &[u8]) -> Found {
    Found::of(held(contents, request), lent)
}

fn held(contents: &Contents, request: &Lookup) -> Result<Entry, u8> {
    if request.store.len() != STORE_LENGTH || request.slot >= SLOTS as u64 {
        return Err(1);
    }
    let slots = contents.as_ref().map_err(|number| *number)?;
    slots[request.slot as usize].clone().ok_or(7)
}

/// "1, 2; else 0, n, and the slots of the certificates that stand at that
/// second, ascending, at the front of the list; the others stay."
pub fn standing(contents: &Contents, request: &Standing) -> Listed {
    let mut list = request.list.clone();
    let answer = stand(contents, request);
    if let Ok(slots) = &answer {
        list[..slots.len()].copy_from_slice(slots);
    }
    Listed::of(answer.map(|slots| slots.len()), list)
}

fn stand(contents: &Contents, request: &Standing) -> Result<Vec<u8>, u8> {
    if request.store.len() != STORE_LENGTH || request.list.len() < SLOTS {
        return Err(1);
    }
    let slots = contents.as_ref().map_err(|number| *number)?;
    let stands = standing::standing(slots, request.second);
    let stands = |slot: &u8| stands[usize::from(*slot)];
    Ok((0..SLOTS as u8).filter(stands).collect())
}
