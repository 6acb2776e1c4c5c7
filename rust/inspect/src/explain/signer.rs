//! The signer of a message: 8 and 9 for a certificate that it carries, 7 for an
//! id that it names.

use std::ops::Range;

use nattveldi::Refusal::{OtherCertificate, Withdrawn};

use super::issue::stored;
use super::steps::Steps;
use crate::proved;
use crate::reading::{Message, Signer};
use crate::store::{Record, Slots, WITHDRAWN};

pub fn signer(
    steps: &mut Steps,
    slots: &Slots,
    octets: &[u8],
    message: &Message,
) -> Result<Record, u8> {
    match &message.signer {
        Signer::Id(id) => stored(steps, slots, "the signer", id).cloned(),
        Signer::Certificate(range) => carried(steps, slots, octets, range),
    }
}

/// Its fields and its id are the library's.
fn carried(
    steps: &mut Steps,
    slots: &Slots,
    octets: &[u8],
    range: &Range<usize>,
) -> Result<Record, u8> {
    let certificate = &octets[range.clone()];
    let fields = proved::read(certificate).map_err(|refusal| refusal.number())?;
    let id = proved::id(certificate).map_err(|refusal| refusal.number())?;
    let record = Record::from_certificate(certificate, id, &fields);
    steps.note(format!("the message carries {}", record.title()));
    let Some((slot, stored)) = slots.find(&record.id) else {
        steps.note("its id is not stored, so there is no copy to compare (8, 9)");
        return Ok(record);
    };
    let text = format!("slot {slot} has its id, and is not withdrawn");
    steps.test(Withdrawn, stored.state != WITHDRAWN, text)?;
    let difference = record.difference(stored);
    let words = difference.map_or(String::new(), |field| format!("; {field} differs"));
    let text = format!("slot {slot} holds the same fields{words}");
    steps.test(OtherCertificate, difference.is_none(), text)?;
    Ok(record)
}
