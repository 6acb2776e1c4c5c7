//! A message by itself: whether it reads, and its fields.

use super::record::its_aid;
use super::{Lines, Page};
use crate::fact::Fact;
use crate::input::Origin;
use crate::json::{Object, Value};
use crate::proved;
use crate::reading::{self, Message, Signer};
use crate::text::hex;
use crate::verdict;

const READS: &str = "it reads; `decide` judges it against a store";

pub fn message(origin: &Origin, given: &[u8]) -> Page {
    let number = verdict::message(given);
    let own = reading::message(given);
    let mut lines = Lines::about("message", &[("message", origin)]);
    lines.verdict_or("verdict", number, READS);
    let parts = match (&own.outcome, number) {
        (Ok(message), 0) => lines.message_parts(given, message).into(),
        _ => {
            lines.set("id", Value::Null);
            Value::Null
        }
    };
    let own = lines.reading(&own, number).with("message", parts);
    lines.set("own_reading", own);
    lines.page()
}

impl Lines {
    /// The places are this tool's reading, the id of a certificate at its place
    /// is the library's.
    fn message_parts(&mut self, given: &[u8], message: &Message) -> Object {
        let whose = "(this tool's own reading; the id of a certificate is the library's)";
        self.label("parts", whose);
        let mut parts = self.signer(given, &message.signer);
        parts.set("generation_time", message.generation_time);
        parts.set("expiration", message.expiration);
        let location = message.location.map(|(latitude, longitude)| {
            let object = Object::new().with("latitude", latitude);
            object.with("longitude", longitude)
        });
        parts.set("generation_location", location);
        parts.extend(its_aid(message.its_aid));
        let (payload, signature) = (&message.payload, &message.signature);
        let places = [
            ("payload", payload.start, payload.len()),
            ("signed", 0, signature.start),
            ("signature", signature.start, signature.len()),
        ];
        let places = places.map(|(key, offset, length)| (key, key, Fact::range(offset, length)));
        parts.extend(self.facts(places.into()));
        parts
    }

    fn signer(&mut self, given: &[u8], signer: &Signer) -> Object {
        let object = Object::new();
        match signer {
            Signer::Id(id) => {
                self.label("signer", &format!("by id, {}", hex::text(id)));
                self.set("id", Value::Null);
                let object = object.with("signer_id", hex::digits(id));
                object.with("certificate", Value::Null)
            }
            Signer::Certificate(range) => {
                let place = Fact::range(range.start, range.len());
                self.label("signer", &format!("by certificate, {}", place.words));
                let id = proved::id(&given[range.clone()]);
                match &id {
                    Ok(id) => self.label("", &format!("with the id {}", hex::text(id))),
                    Err(refusal) => self.label("", &format!("which is refused: {refusal}")),
                }
                self.set("id", id.ok().map(|id| hex::digits(&id)));
                let object = object.with("signer_id", Value::Null);
                object.with("certificate", place.value)
            }
        }
    }
}
