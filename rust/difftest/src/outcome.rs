//! The answers that paper 01 gives to list, withdraw and page, worked out from
//! what a store holds.

use crate::changes::Changed;
use crate::entry::{Entry, Slots, WITHDRAWN};
use crate::hex;
use crate::lists::{List, Listed};
use crate::plan::{AUTHORITY, TICKET};
use crate::slot::{SLOTS, SLOT_LENGTH, STORE_LENGTH};
use crate::standing;
use crate::withdrawals::Withdrawal;

/// The octet of a slot whose two top bits are the state.
const STATE_OCTET: usize = 16;

/// What a store holds, or the number by which it is refused.
pub type Contents = Result<Slots, u8>;

/// The slot of the held certificate under an id.
pub fn held(slots: &Slots, id: &[u8]) -> Result<usize, u8> {
    let has_id = |entry: &Entry| entry.id == id;
    let found = |slot: &Option<Entry>| slot.as_ref().is_some_and(has_id);
    let at = slots.iter().position(found).ok_or(7)?;
    let is_withdrawn = |entry: &Entry| entry.state == WITHDRAWN;
    if slots[at].as_ref().is_some_and(is_withdrawn) {
        return Err(8);
    }
    Ok(at)
}

pub fn list(contents: &Contents, request: &List) -> Listed {
    let mut list = request.list.clone();
    let fallen = fallen(contents, request);
    let number = fallen.as_ref().err().copied().unwrap_or(0);
    let fallen = fallen.unwrap_or_default();
    list[..fallen.len()].copy_from_slice(&fallen);
    Listed {
        number,
        n: fallen.len(),
        list,
    }
}

fn fallen(contents: &Contents, request: &List) -> Result<Vec<u8>, u8> {
    if is_bad_call(&request.store, &request.id) || request.list.len() < SLOTS {
        return Err(1);
    }
    let slots = contents.as_ref().map_err(|number| *number)?;
    let at = held(slots, &request.id)?;
    Ok(standing::fallen(slots, at, request.second))
}

fn is_bad_call(store: &[u8], id: &[u8]) -> bool {
    store.len() != STORE_LENGTH || id.len() != 8
}

pub fn withdraw(contents: &Contents, request: &Withdrawal) -> Changed {
    let mut store = request.store.clone();
    let found = match contents {
        _ if is_bad_call(&store, &request.id) => Err(1),
        Ok(slots) => held(slots, &request.id),
        Err(number) => Err(*number),
    };
    if let Ok(at) = found {
        // Held is the bits 01, withdrawn 10.
        store[at * SLOT_LENGTH + STATE_OCTET] ^= 0b1100_0000;
    }
    Changed {
        number: found.err().unwrap_or(0),
        store,
    }
}

/// The text for an input of the right length.
pub fn page(contents: &Contents, id: &[u8], second: u32) -> String {
    page_of(contents, id, second).unwrap_or_else(|number| format!("refused {number}\n"))
}

fn page_of(contents: &Contents, id: &[u8], second: u32) -> Result<String, u8> {
    let slots = contents.as_ref().map_err(|number| *number)?;
    let fallen = standing::fallen(slots, held(slots, id)?, second);
    let mut text = format!("withdraw {} at {second}\n", hex::text(id));
    for slot in &fallen {
        let entry = slots[usize::from(*slot)].as_ref().expect("a filled slot");
        text += &format!("{slot} {}\n", row(entry));
    }
    Ok(text + &format!("{} certificates\n", fallen.len()))
}

fn row(entry: &Entry) -> String {
    let kind = match entry.kind {
        TICKET => "ticket",
        AUTHORITY => "authority",
        _ => "root",
    };
    format!("{} {kind} {}", hex::text(&entry.id), hex::text(&entry.name))
}
