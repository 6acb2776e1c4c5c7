//! A signed message (001, clauses 5.1 to 5.3, 5.6 and 5.7).

use std::ops::Range;

use super::cursor::{fault, Cursor};
pub use super::headers::Signer;
use super::number::{MALFORMED, TOO_LONG};
use super::points::{nothing_lacking, Lacking};
use super::{Fault, Reading};
use crate::fact::Fact;

const LONGEST: usize = 2_048;

/// What a message says.
#[derive(Clone, Debug, PartialEq, Eq)]
pub struct Message {
    pub signer: Signer,
    /// Microseconds since the start of 2004 (TAI).
    pub generation_time: u64,
    pub expiration: Option<u32>,
    /// Latitude and longitude.
    pub location: Option<(i32, i32)>,
    pub its_aid: u32,
    pub payload: Range<usize>,
    /// The signature structure, which covers all octets before it.
    pub signature: Range<usize>,
}

/// Reads a message that is the whole input.
pub fn message(octets: &[u8]) -> Reading<Message> {
    let mut cursor = Cursor::new(octets);
    let outcome = whole(&mut cursor, octets.len());
    cursor.finish(outcome)
}

fn whole(cursor: &mut Cursor, length: usize) -> Result<Message, Fault> {
    if length > LONGEST {
        let reason = format!("{length} octets, and a message has at most {LONGEST}");
        return Err(fault(TOO_LONG, LONGEST, &reason));
    }
    cursor.exactly("protocol_version", 2, "")?;
    let (headers, lacking) = cursor.headers()?;
    let payload = cursor.payload(lacking)?;
    let signature = cursor.trailer()?;
    cursor.nothing_left("the input")?;
    let read = (headers.signer, headers.generation_time, headers.its_aid);
    let (Some(signer), Some(generation_time), Some(its_aid)) = read else {
        unreachable!("a lacking header is a fault at the payload")
    };
    Ok(Message {
        signer,
        generation_time,
        expiration: headers.expiration,
        location: headers.location,
        its_aid,
        payload,
        signature,
    })
}

impl Cursor<'_> {
    fn payload(&mut self, lacking: Option<Lacking>) -> Result<Range<usize>, Fault> {
        self.exactly("payload_field.type", 1, "signed")?;
        nothing_lacking(lacking)?;
        let end = self.length("payload_field.data.length")?;
        let start = self.at();
        if start < end {
            let octets = self.run("payload_field.data", end - start)?;
            self.describe(Fact::name(octets));
        }
        Ok(start..end)
    }

    /// One signature; where it stands.
    fn trailer(&mut self) -> Result<Range<usize>, Fault> {
        let end = self.length("trailer_fields.length")?;
        let outer = self.enter(end);
        if !self.any_left() {
            let reason = "signature (1) is required and lacking, found at its vector's end";
            return Err(fault(MALFORMED, self.end(), reason));
        }
        self.exactly("trailer_field.type", 1, "signature")?;
        let (start, end) = self.signature(None)?;
        self.nothing_left("trailer_fields")?;
        self.leave(outer);
        Ok(start..end)
    }
}
