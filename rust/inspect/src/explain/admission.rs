//! Install and admit, test by test.

use nattveldi::Refusal::{AlreadyHeld, Full, Signature, Withdrawn, WrongKind};

use super::issue::{issued_by, stored};
use super::library::{reads, slots, store_is_valid, store_length};
use super::steps::Steps;
use super::Explanation;
use crate::proved;
use crate::reading;
use crate::store::{Record, Slots, WITHDRAWN};
use crate::text::kind::{self, ROOT};
use crate::verdict::{self, GOOD};

pub fn install(store: &[u8], certificate: &[u8], verdict: u8) -> Explanation {
    Explanation::of(|steps| tests(steps, store, certificate, verdict, true))
}

pub fn admit(store: &[u8], certificate: &[u8], verdict: u8) -> Explanation {
    Explanation::of(|steps| tests(steps, store, certificate, verdict, false))
}

fn tests(
    steps: &mut Steps,
    store: &[u8],
    octets: &[u8],
    verdict: u8,
    wants_root: bool,
) -> Result<(), u8> {
    store_length(steps, store)?;
    store_is_valid(steps, store)?;
    let record = read(steps, octets)?;
    let slots = slots(store)?;
    steps.note(format!("the certificate is {}", record.title()));
    let wanted = if wants_root {
        "a root"
    } else {
        "a ticket or an authority"
    };
    let text = format!("it is {wanted}: {}", kind::word(record.kind));
    steps.test(WrongKind, (record.kind == ROOT) == wants_root, text)?;
    let held = slots.find(&record.id);
    let place = held.map_or(String::new(), |(slot, _)| format!("; slot {slot} has it"));
    let text = format!("its id is in no filled slot{place}");
    steps.test(AlreadyHeld, held.is_none(), text)?;
    if !wants_root {
        issuer(steps, &slots, &record)?;
    }
    let text = format!("the chip's verdict on its signature is 1: {verdict}");
    steps.test(Signature, verdict == GOOD, text)?;
    let empty = slots.first_empty();
    let place = empty.map_or("none is".to_string(), |slot| format!("slot {slot}"));
    steps.test(Full, empty.is_some(), format!("a slot is empty: {place}"))
}

/// Its fields and its id are the library's.
fn read(steps: &mut Steps, octets: &[u8]) -> Result<Record, u8> {
    let own = reading::certificate(octets);
    reads(steps, "certificate", verdict::certificate(octets), &own)?;
    let fields = proved::read(octets).map_err(|refusal| refusal.number())?;
    let id = proved::id(octets).map_err(|refusal| refusal.number())?;
    Ok(Record::from_certificate(octets, id, &fields))
}

/// One step up: here withdrawn comes before the limits.
fn issuer(steps: &mut Steps, slots: &Slots, record: &Record) -> Result<(), u8> {
    let issuer = stored(steps, slots, "its issuer", &record.issuer)?;
    steps.note(format!("its issuer is {}", issuer.title()));
    let text = "the issuer is not withdrawn";
    steps.test(Withdrawn, issuer.state != WITHDRAWN, text)?;
    issued_by(steps, record, issuer)
}
