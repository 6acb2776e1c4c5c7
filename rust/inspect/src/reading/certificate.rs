//! A certificate (001, clause 6.1).

use super::cursor::{fault, Cursor};
use super::number::{MALFORMED, TOO_LONG, UNSUPPORTED};
use super::{Fault, Reading};
use crate::fact::Fact;
use crate::text::kind;

const LONGEST: usize = 1_024;
const LONGEST_NAME: usize = 32;

/// Reads a certificate that is the whole input.
pub fn certificate(octets: &[u8]) -> Reading<()> {
    let mut cursor = Cursor::new(octets);
    let outcome = whole(&mut cursor, octets.len());
    cursor.finish(outcome)
}

fn whole(cursor: &mut Cursor, length: usize) -> Result<(), Fault> {
    if length > LONGEST {
        let reason = format!("{length} octets, and a certificate has at most {LONGEST}");
        return Err(fault(TOO_LONG, LONGEST, &reason));
    }
    cursor.certificate()?;
    cursor.nothing_left("the input")
}

impl Cursor<'_> {
    /// A certificate in any container, up to the end of its signature.
    pub fn certificate(&mut self) -> Result<(), Fault> {
        self.exactly("version", 2, "")?;
        let is_self = self.certificate_signer()?;
        let kind = self.subject_type(is_self)?;
        self.subject_name()?;
        let lacking = self.attributes(kind)?;
        let lacking = self.restrictions(lacking)?;
        self.signature(lacking)?;
        Ok(())
    }

    /// Whether the certificate is signed by itself.
    fn certificate_signer(&mut self) -> Result<bool, Fault> {
        let octet = self.octet("signer_info.type")?;
        self.describe(Fact::spelled(octet, signer_type(octet)));
        if octet == 0 {
            return Ok(true);
        }
        let reason = format!("signer_info.type {octet} is not read in a certificate");
        self.need(octet == 1, UNSUPPORTED, &reason)?;
        self.run("signer_info.digest", 8)?;
        Ok(false)
    }

    fn subject_type(&mut self, is_self: bool) -> Result<u8, Fault> {
        let octet = self.octet("subject_info.subject_type")?;
        self.describe(Fact::spelled(octet, kind::standard(octet)));
        let reason = format!("subject_type {octet} is not read here");
        self.need(matches!(octet, 1 | 2 | 4), UNSUPPORTED, &reason)?;
        let reason = "root_ca goes with signer_info self, the others with a digest";
        self.need((octet == kind::ROOT) == is_self, MALFORMED, reason)?;
        Ok(octet)
    }

    /// Its length is one plain octet, no IntX (001, clause 6.2).
    fn subject_name(&mut self) -> Result<(), Fault> {
        let field = "subject_info.subject_name.length";
        let length = usize::from(self.octet(field)?);
        self.describe(Fact::length(length));
        self.fits(field, length)?;
        let reason = format!("a name of {length} octets, and at most {LONGEST_NAME} are allowed");
        self.need(length <= LONGEST_NAME, MALFORMED, &reason)?;
        if length > 0 {
            let octets = self.run("subject_info.subject_name", length)?;
            self.describe(Fact::name(octets));
        }
        Ok(())
    }
}

/// SignerInfoType.
pub fn signer_type(octet: u8) -> &'static str {
    match octet {
        0 => "self",
        1 => "certificate_digest_with_sha256",
        2 => "certificate",
        3 => "certificate_chain",
        4 => "certificate_digest_with_other_algorithm",
        _ => "not in the standard",
    }
}
