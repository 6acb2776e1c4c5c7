//! The signature structure of certificates and messages (001, clauses 4.2.5, 4.2.8 and 4.2.9).

use crate::octets::Reader;

pub(crate) const ECDSA_NISTP256: u8 = 0;

pub(crate) const X_COORDINATE_ONLY: u8 = 0;
pub(crate) const COMPRESSED_Y_0: u8 = 2;
pub(crate) const COMPRESSED_Y_1: u8 = 3;
pub(crate) const FIELD_SIZE: usize = 32;

/// EcdsaSignature (001, clause 4.2.9), behind the algorithm; gives the point type of R.
pub(crate) fn read_ecdsa_signature(reader: &mut Reader) -> Result<u8, u8> {
    let point_type = reader.one_of(&[X_COORDINATE_ONLY, COMPRESSED_Y_0, COMPRESSED_Y_1])?;
    reader.run(FIELD_SIZE)?;
    reader.run(FIELD_SIZE)?;
    Ok(point_type)
}
