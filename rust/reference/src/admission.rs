//! Install an anchor; admit a certificate (document 01, "Order of checks").

use crate::certificate::{hashed_id, read};
use crate::constants::{
    ACCEPTED, ALREADY_HELD, AUTHORITY, BAD_CALL, BAD_STORE, FULL, GOOD_VERDICT, ROOT, SIGNATURE,
    STATE_WITHDRAWN, STORE_LENGTH, TICKET, UNKNOWN, WITHDRAWN, WRONG_KIND,
};
use crate::decode::decode;
use crate::encode::encode;
use crate::issue::is_issued_by;
use crate::record::Record;
use crate::store::{find, lowest_empty, slots};
use crate::validity::store_is_valid;

/// Installs a root, and gives the answer's number; the store changes with 0 alone.
pub fn install(store: &mut [u8], certificate: &[u8], verdict: u8) -> u8 {
    number(try_install(store, certificate, verdict))
}

/// Admits a ticket or an authority, and gives the answer's number; the store changes with 0 alone.
pub fn admit(store: &mut [u8], certificate: &[u8], verdict: u8) -> u8 {
    number(try_admit(store, certificate, verdict))
}

fn number(result: Result<(), u8>) -> u8 {
    result.err().unwrap_or(ACCEPTED)
}

fn try_install(store: &mut [u8], certificate: &[u8], verdict: u8) -> Result<(), u8> {
    let record = read_new(store, certificate, &[ROOT])?;
    write(store, &record, verdict)
}

fn try_admit(store: &mut [u8], certificate: &[u8], verdict: u8) -> Result<(), u8> {
    let record = read_new(store, certificate, &[TICKET, AUTHORITY])?;
    check_issuer(store, &record)?;
    write(store, &record, verdict)
}

/// "1 (store not 13,568 octets), 2, 3, reading, 10 (install wants kind 4, admit 1 or 2), 17 (id in
/// any filled slot)"
fn read_new(store: &[u8], octets: &[u8], kinds: &[u8]) -> Result<Record, u8> {
    if store.len() != STORE_LENGTH {
        return Err(BAD_CALL);
    }
    if !store_is_valid(store) {
        return Err(BAD_STORE);
    }
    let certificate = read(octets)?;
    if !kinds.contains(&certificate.kind) {
        return Err(WRONG_KIND);
    }
    let id = hashed_id(octets, 0, &certificate);
    if find(store, &id).is_some() {
        return Err(ALREADY_HELD);
    }
    Ok(Record::held(octets, &certificate, id))
}

/// "For admit the issuer: 7, 8 (issuer withdrawn), 10, 11, 12, 13 as in the walk, with no second
/// and no position"
fn check_issuer(store: &[u8], record: &Record) -> Result<(), u8> {
    let slot = find(store, &record.issuer).ok_or(UNKNOWN)?;
    let issuer = decode(&slots(store)[slot]);
    if issuer.state == STATE_WITHDRAWN {
        return Err(WITHDRAWN);
    }
    is_issued_by(record, &issuer)
}

/// "For both then 15, 16. The lowest empty slot is written."
fn write(store: &mut [u8], record: &Record, verdict: u8) -> Result<(), u8> {
    if verdict != GOOD_VERDICT {
        return Err(SIGNATURE);
    }
    let slot = lowest_empty(store).ok_or(FULL)?;
    *slot = encode(record);
    Ok(())
}
