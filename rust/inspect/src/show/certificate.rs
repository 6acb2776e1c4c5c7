//! A certificate.

use super::record::record;
use super::{Lines, Page};
use crate::fact::Fact;
use crate::input::Origin;
use crate::json::Value;
use crate::proved;
use crate::reading;
use crate::store::Record;
use crate::text::{hex, kind, name, time};
use crate::verdict;

pub fn certificate(origin: &Origin, given: &[u8]) -> Page {
    let answer = proved::read(given);
    let number = verdict::number(&answer);
    let own = reading::certificate(given);
    let mut lines = Lines::about("certificate", &[("certificate", origin)]);
    lines.verdict("verdict", number);
    match answer.and_then(|fields| Ok((proved::id(given)?, fields))) {
        Ok((id, fields)) => lines.library_fields(given, id, &fields),
        Err(_) => {
            lines.set("id", Value::Null);
            lines.set("certificate", Value::Null);
        }
    }
    let own = lines.reading(&own, number);
    lines.set("own_reading", own);
    lines.page()
}

impl Lines {
    /// What the library read.
    fn library_fields(&mut self, given: &[u8], id: [u8; 8], fields: &nattveldi::Certificate) {
        let id_fact = Fact::octets(&id);
        self.label("id", &id_fact.words);
        self.set("id", id_fact.value);
        let read = Record::from_certificate(given, id, fields);
        let (word, standard) = (kind::word(read.kind), kind::standard(read.kind));
        self.label("kind", &format!("{word} ({standard}, {})", read.kind));
        self.label("name", &name::text(&read.name));
        let issuer = fields.issuer.map(|_| hex::text(&read.issuer));
        self.label("issuer", &issuer.unwrap_or("itself".to_string()));
        self.label("from", &time::second(read.start));
        self.label("up to before", &time::second(read.end));
        let (signed, signature) = (fields.signed, fields.signature.whole);
        let signed = Fact::range(signed.start, signed.length);
        let signature = Fact::range(signature.start, signature.length);
        let parts = vec![
            ("signed", "signed", signed),
            ("signature", "signature", signature),
        ];
        let mut certificate = record(&read);
        certificate.extend(self.facts(parts));
        self.set("certificate", certificate);
    }
}
