//! The checks of a message that decide and prepare share (document 01, "Order of checks").

use crate::certificate::hashed_id;
use crate::constants::{
    BAD_CALL, BAD_STORE, LATITUDE_LIMIT, LONGITUDE_LIMIT, MICROSECONDS, NOT_PERMITTED,
    OTHER_CERTIFICATE, OUT_OF_DATE, STATE_WITHDRAWN, STORE_LENGTH, TICKET, UNKNOWN, WITHDRAWN,
    WRONG_KIND,
};
use crate::decode::decode;
use crate::encode::encode;
use crate::headers::{Embedded, Headers};
use crate::message::{read_message, Message};
use crate::record::Record;
use crate::store::{find, slots, state};
use crate::validity::store_is_valid;
use crate::walk::walk;

const MAXIMUM_AGE: u64 = 600_000_000;
/// "Age 0 stands for 2,000,000."
const DEFAULT_AGE: u64 = 2_000_000;

/// What decide and prepare are asked.
#[derive(Clone, Copy, Debug)]
pub struct Call<'a> {
    pub store: &'a [u8],
    pub message: &'a [u8],
    /// Microseconds.
    pub now: u64,
    /// Own position.
    pub latitude: i32,
    pub longitude: i32,
    /// Allowed age in microseconds.
    pub age: u64,
}

/// Reads the message into an empty one, makes every check but those of the verdicts, and gives the
/// signer.
pub(crate) fn check(call: &Call, message: &mut Message) -> Result<Record, u8> {
    check_call(call)?;
    if !store_is_valid(call.store) {
        return Err(BAD_STORE);
    }
    read_message(call.message, message)?;
    let headers = &message.headers;
    check_times(call, headers)?;
    let signer = match &headers.embedded {
        Some(embedded) => embedded_signer(call, embedded)?,
        None => stored_signer(call.store, &headers.digest)?,
    };
    check_chain(call, headers, &signer)?;
    if !signer.permissions().contains(&headers.its_aid) {
        return Err(NOT_PERMITTED);
    }
    Ok(signer)
}

/// "1 (store length, position out of range, age over 600,000,000)"
fn check_call(call: &Call) -> Result<(), u8> {
    let is_place = (-LATITUDE_LIMIT..=LATITUDE_LIMIT).contains(&call.latitude)
        && (-LONGITUDE_LIMIT..=LONGITUDE_LIMIT).contains(&call.longitude);
    if call.store.len() != STORE_LENGTH || !is_place || call.age > MAXIMUM_AGE {
        return Err(BAD_CALL);
    }
    Ok(())
}

/// "14: generation time and now differ by more than the age, or an expiration is at or before the
/// whole second of now."
fn check_times(call: &Call, headers: &Headers) -> Result<(), u8> {
    let age = match call.age {
        0 => DEFAULT_AGE,
        age => age,
    };
    if headers.generation_time.abs_diff(call.now) > age {
        return Err(OUT_OF_DATE);
    }
    match headers.expiration {
        Some(expiration) if u64::from(expiration) <= call.now / MICROSECONDS => Err(OUT_OF_DATE),
        _ => Ok(()),
    }
}

/// "Embedded certificate's id stored but withdrawn 8, stored record otherwise different 9"
fn embedded_signer(call: &Call, embedded: &Embedded) -> Result<Record, u8> {
    let Embedded { start, certificate } = embedded;
    let id = hashed_id(call.message, *start, certificate);
    let signer = Record::held(call.message, certificate, id);
    if let Some(number) = find(call.store, &id) {
        let slot = &slots(call.store)[number];
        if state(slot) == STATE_WITHDRAWN {
            return Err(WITHDRAWN);
        }
        // Both are held, so that every other field is compared.
        if encode(&signer) != *slot {
            return Err(OTHER_CERTIFICATE);
        }
    }
    Ok(signer)
}

/// "A signer id not stored 7"
fn stored_signer(store: &[u8], id: &[u8; 8]) -> Result<Record, u8> {
    let slot = find(store, id).ok_or(UNKNOWN)?;
    Ok(decode(&slots(store)[slot]))
}

/// "A message signer of a kind other than 1 is 10. Then" the walk: "its second is the whole second
/// of generation; its position the location header, else the caller's own."
fn check_chain(call: &Call, headers: &Headers, signer: &Record) -> Result<(), u8> {
    if signer.kind != TICKET {
        return Err(WRONG_KIND);
    }
    let second = headers.generation_time / MICROSECONDS;
    let own_position = (call.latitude, call.longitude);
    let position = headers.location.unwrap_or(own_position);
    walk(call.store, signer, second, Some(position))
}
