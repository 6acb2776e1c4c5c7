//! Points of the curve, keys and signatures (001, clauses 4.2.4 to 4.2.9).

use super::cursor::{fault, Cursor};
use super::number::{MALFORMED, UNSUPPORTED};
use super::Fault;
use crate::fact::Fact;

/// A required element that a vector lacked, and that vector's end.
pub struct Lacking {
    pub what: &'static str,
    pub end: usize,
}

/// The lacking element counts at the vector's end, where the next field
/// begins: that field's own 4 or 6 comes first, so this is asked after it.
pub fn nothing_lacking(lacking: Option<Lacking>) -> Result<(), Fault> {
    match lacking {
        None => Ok(()),
        Some(Lacking { what, end }) => {
            let reason = format!("{what} is required and lacking, found at its vector's end");
            Err(fault(MALFORMED, end, &reason))
        }
    }
}

impl Cursor<'_> {
    pub fn verification_key(&mut self) -> Result<(), Fault> {
        self.exactly("algorithm", 0, "ecdsa_nistp256_with_sha256")?;
        self.point("public_key.type", "public_key.x", &[2, 3])
    }

    pub fn encryption_key(&mut self) -> Result<(), Fault> {
        self.exactly("algorithm", 1, "ecies_nistp256")?;
        self.exactly("supported_symm_alg", 0, "aes_128_ccm")?;
        self.point("public_key.type", "public_key.x", &[2, 3])
    }

    /// Its offset and its end.
    pub fn signature(&mut self, lacking: Option<Lacking>) -> Result<(usize, usize), Fault> {
        let offset = self.at();
        self.exactly("signature.algorithm", 0, "ecdsa_nistp256_with_sha256")?;
        nothing_lacking(lacking)?;
        self.inside(|cursor| {
            cursor.point("ecdsa_signature.R.type", "ecdsa_signature.R.x", &[0, 2, 3])?;
            cursor.run("ecdsa_signature.s", 32)
        })?;
        Ok((offset, self.at()))
    }

    fn point(
        &mut self,
        type_name: &'static str,
        name: &'static str,
        types: &[u8],
    ) -> Result<(), Fault> {
        let octet = self.octet(type_name)?;
        self.describe(Fact::spelled(octet, point_type(octet)));
        let reason = format!("{type_name} {octet} is not read here");
        self.need(types.contains(&octet), UNSUPPORTED, &reason)?;
        self.run(name, 32)?;
        Ok(())
    }
}

/// EccPointType.
pub fn point_type(octet: u8) -> &'static str {
    match octet {
        0 => "x_coordinate_only",
        2 => "compressed_lsb_y_0",
        3 => "compressed_lsb_y_1",
        4 => "uncompressed",
        _ => "not in the standard",
    }
}
