//! From a certificate upward to its root (document 01, "How a chain is walked").

use crate::certificate::Rectangle;
use crate::constants::{
    CHAIN_TOO_LONG, MAXIMUM_CHAIN, OUTSIDE_PERIOD, OUTSIDE_PLACE, ROOT, STATE_WITHDRAWN, UNKNOWN,
    WITHDRAWN,
};
use crate::decode::decode;
use crate::issue::is_issued_by;
use crate::record::Record;
use crate::store::{find, slots};

/// Walks from the signer, stored or not, up to a root, or gives the number of its refusal. The
/// position is a latitude and a longitude; without one, no position is tested.
pub fn walk(
    store: &[u8],
    signer: &Record,
    second: u64,
    position: Option<(i32, i32)>,
) -> Result<(), u8> {
    climb(store, signer, |certificate| {
        check_state_and_second(certificate, second)?;
        match position {
            Some(position) if !region_contains(certificate.rectangles(), position) => {
                Err(OUTSIDE_PLACE)
            }
            _ => Ok(()),
        }
    })
}

/// "For each certificate from the signer upward": its own tests; "a root ends the walk; this was
/// the eighth certificate, 18; issuer not stored, 7"; and the tests of one record issued by another.
#[inline]
pub(crate) fn climb(
    store: &[u8],
    signer: &Record,
    check: impl Fn(&Record) -> Result<(), u8>,
) -> Result<(), u8> {
    let mut certificate = *signer;
    let mut count = 1;
    loop {
        check(&certificate)?;
        if certificate.kind == ROOT {
            return Ok(());
        }
        if count == MAXIMUM_CHAIN {
            return Err(CHAIN_TOO_LONG);
        }
        let slot = find(store, &certificate.issuer).ok_or(UNKNOWN)?;
        let issuer = decode(&slots(store)[slot]);
        is_issued_by(&certificate, &issuer)?;
        certificate = issuer;
        count += 1;
    }
}

/// "Withdrawn, 8; second outside start ≤ second < end, 12"
#[inline]
pub(crate) fn check_state_and_second(certificate: &Record, second: u64) -> Result<(), u8> {
    if certificate.state == STATE_WITHDRAWN {
        return Err(WITHDRAWN);
    }
    if !(u64::from(certificate.start)..certificate.end).contains(&second) {
        return Err(OUTSIDE_PERIOD);
    }
    Ok(())
}

/// "Edges belong to it"; a region without rectangles is everywhere.
fn region_contains(region: &[Rectangle], (latitude, longitude): (i32, i32)) -> bool {
    region.is_empty()
        || region.iter().any(|rectangle| {
            (rectangle.south..=rectangle.north).contains(&latitude)
                && (rectangle.west..=rectangle.east).contains(&longitude)
        })
}
