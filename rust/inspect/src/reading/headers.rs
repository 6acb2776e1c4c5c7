//! header_fields of a message (001, clauses 5.4 and 5.5).

use std::ops::Range;

use super::certificate::signer_type;
use super::cursor::Cursor;
use super::number::UNSUPPORTED;
use super::points::Lacking;
use super::Fault;
use crate::fact::Fact;
use crate::json::Value;

const TYPE: &str = "header_field.type";
const NAMED: [u8; 7] = [0, 1, 2, 3, 4, 5, 128];
const SIGNER_INFO: u8 = 128;

/// Who signed a message.
#[derive(Clone, Debug, PartialEq, Eq)]
pub enum Signer {
    Id([u8; 8]),
    /// The octets of the certificate that the message carries.
    Certificate(Range<usize>),
}

/// What the headers say, as far as they are there.
#[derive(Default)]
pub struct Headers {
    pub signer: Option<Signer>,
    pub generation_time: Option<u64>,
    pub expiration: Option<u32>,
    pub location: Option<(i32, i32)>,
    pub its_aid: Option<u32>,
}

impl Cursor<'_> {
    /// The vector, and what it lacks.
    pub fn headers(&mut self) -> Result<(Headers, Option<Lacking>), Fault> {
        let end = self.length("header_fields.length")?;
        let outer = self.enter(end);
        let mut headers = Headers::default();
        if self.any_left() {
            headers.signer = Some(self.signer()?);
            self.other_headers(&mut headers)?;
        }
        self.leave(outer);
        let what = match &headers {
            Headers { signer: None, .. } => "signer_info (128)",
            Headers {
                generation_time: None,
                ..
            } => "generation_time (0)",
            Headers { its_aid: None, .. } => "its_aid (5)",
            _ => return Ok((headers, None)),
        };
        Ok((headers, Some(Lacking { what, end })))
    }

    /// The first header. Another one there is out of order, or not read here.
    fn signer(&mut self) -> Result<Signer, Fault> {
        if !self.element(TYPE, SIGNER_INFO, "signer_info")? {
            self.no_stray(TYPE, &NAMED)?;
        }
        self.inside(Cursor::signer_info)
    }

    fn signer_info(&mut self) -> Result<Signer, Fault> {
        let octet = self.octet("signer_info.type")?;
        self.describe(Fact::spelled(octet, signer_type(octet)));
        let reason = format!("signer_info.type {octet} is not read in a message");
        self.need(matches!(octet, 1 | 2), UNSUPPORTED, &reason)?;
        if octet == 1 {
            let mut id = [0; 8];
            id.copy_from_slice(self.run("signer_info.digest", 8)?);
            return Ok(Signer::Id(id));
        }
        let start = self.at();
        self.inside(Cursor::certificate)?;
        Ok(Signer::Certificate(start..self.at()))
    }

    fn other_headers(&mut self, headers: &mut Headers) -> Result<(), Fault> {
        if self.element(TYPE, 0, "generation_time")? {
            let time = self.inside(|c| c.time64("generation_time"))?;
            headers.generation_time = Some(time);
        }
        if self.element(TYPE, 1, "generation_time_standard_deviation")? {
            self.inside(|c| c.time64("time"))?;
            self.inside(|c| c.octet("log_std_dev"))?;
        }
        if self.element(TYPE, 2, "expiration")? {
            headers.expiration = Some(self.inside(|c| c.time32("expiry_time"))?);
        }
        if self.element(TYPE, 3, "generation_location")? {
            headers.location = Some(self.inside(Cursor::location)?);
        }
        if self.element(TYPE, 4, "request_unrecognized_certificate")? {
            self.inside(Cursor::digests)?;
        }
        if self.element(TYPE, 5, "its_aid")? {
            headers.its_aid = Some(self.inside(Cursor::its_aid)?);
        }
        self.no_stray(TYPE, &NAMED)
    }

    fn location(&mut self) -> Result<(i32, i32), Fault> {
        let latitude = self.latitude("generation_location.latitude")?;
        let longitude = self.longitude("generation_location.longitude")?;
        self.elevation()?;
        Ok((latitude, longitude))
    }

    /// Decimetres, negative from F001 on; F000 is unknown (001, clause 4.2.19).
    fn elevation(&mut self) -> Result<(), Fault> {
        let octets = self.run("generation_location.elevation", 2)?;
        let value = i32::from(octets[0]) << 8 | i32::from(octets[1]);
        let decimetres = if value > 0xf000 {
            value - 0x1_0000
        } else {
            value
        };
        let sign = if decimetres < 0 { "-" } else { "" };
        let size = decimetres.unsigned_abs();
        self.describe(match value {
            0xf000 => Fact::new("unknown", Value::Null),
            _ => {
                let words = format!("{sign}{}.{} metres", size / 10, size % 10);
                Fact::new(words, decimetres)
            }
        });
        Ok(())
    }

    fn digests(&mut self) -> Result<(), Fault> {
        let end = self.length("digests.length")?;
        let outer = self.enter(end);
        while self.any_left() {
            self.run("digest", 3)?;
        }
        self.leave(outer);
        Ok(())
    }
}
