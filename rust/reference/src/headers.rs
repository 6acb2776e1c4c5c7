//! The header vector of a message (001, clauses 5.4 and 5.5; document 01, "The signed message").

use crate::certificate::{read_in, Certificate};
use crate::constants::{CUT, MALFORMED, UNSUPPORTED};
use crate::octets::Reader;

const GENERATION_TIME: u8 = 0;
const GENERATION_TIME_WITH_DEVIATION: u8 = 1;
const EXPIRATION: u8 = 2;
const GENERATION_LOCATION: u8 = 3;
const REQUEST_UNRECOGNIZED_CERTIFICATE: u8 = 4;
const ITS_AID: u8 = 5;
const SIGNER_INFO: u8 = 128;

const SIGNER_DIGEST: u8 = 1;
const SIGNER_CERTIFICATE: u8 = 2;

/// HashedId3 (001, clause 4.2.13).
const DIGEST_LENGTH: usize = 3;
const ELEVATION_LENGTH: usize = 2;

/// A certificate inside a message; its parts are the message's.
pub(crate) struct Embedded {
    /// Its first octet.
    pub(crate) start: usize,
    pub(crate) certificate: Certificate,
}

/// What the headers say that decides something.
pub(crate) struct Headers {
    /// The signer's id, where no certificate is embedded.
    pub(crate) digest: [u8; 8],
    pub(crate) embedded: Option<Embedded>,
    /// Microseconds.
    pub(crate) generation_time: u64,
    /// Seconds.
    pub(crate) expiration: Option<u32>,
    /// Latitude and longitude.
    pub(crate) location: Option<(i32, i32)>,
    pub(crate) its_aid: u32,
}

impl Headers {
    pub(crate) const EMPTY: Headers = Headers {
        digest: [0; 8],
        embedded: None,
        generation_time: 0,
        expiration: None,
        location: None,
        its_aid: 0,
    };
}

/// Reads the headers, and tells whether the required ones are among them.
pub(crate) fn read_headers(mut reader: Reader, headers: &mut Headers) -> Result<bool, u8> {
    if reader.is_at_end() {
        return Ok(false);
    }
    // "The first header is 128, signer": another named one is out of order.
    if read_type(&mut reader)? != SIGNER_INFO {
        return Err(MALFORMED);
    }
    read_signer(&mut reader, headers)?;

    // "Then ascending, each once": a second 128 is repeated.
    let mut least = GENERATION_TIME;
    let mut required = 0;
    while !reader.is_at_end() {
        let header = read_type(&mut reader)?;
        if header < least || header == SIGNER_INFO {
            return Err(MALFORMED);
        }
        least = header + 1;
        read_header(&mut reader, header, headers)?;
        required += u8::from(matches!(header, GENERATION_TIME | ITS_AID));
    }
    Ok(required == 2)
}

/// A type named for this vector, else unsupported.
#[inline]
fn read_type(reader: &mut Reader) -> Result<u8, u8> {
    match reader.octet()? {
        header @ (GENERATION_TIME..=ITS_AID | SIGNER_INFO) => Ok(header),
        _ => Err(UNSUPPORTED),
    }
}

/// SignerInfo (001, clause 4.2.10): "1 with an id, or 2 with a certificate under the rules above,
/// ending with its signature".
fn read_signer(reader: &mut Reader, headers: &mut Headers) -> Result<(), u8> {
    if reader.one_of(&[SIGNER_DIGEST, SIGNER_CERTIFICATE])? == SIGNER_DIGEST {
        headers.digest = reader.array()?;
        return Ok(());
    }
    let embedded = headers.embedded.insert(Embedded {
        start: reader.position(),
        certificate: Certificate::EMPTY,
    });
    read_in(reader, &mut embedded.certificate)
}

/// One of the headers behind the signer, from behind its type on.
#[inline]
fn read_header(reader: &mut Reader, header: u8, headers: &mut Headers) -> Result<(), u8> {
    match header {
        GENERATION_TIME => headers.generation_time = reader.u64()?,
        // Read and of no effect.
        GENERATION_TIME_WITH_DEVIATION => {
            reader.u64()?;
            reader.octet()?;
        }
        EXPIRATION => headers.expiration = Some(reader.u32()?),
        GENERATION_LOCATION => {
            headers.location = Some((reader.latitude()?, reader.longitude()?));
            reader.run(ELEVATION_LENGTH)?;
        }
        REQUEST_UNRECOGNIZED_CERTIFICATE => read_digests(reader)?,
        _ => headers.its_aid = reader.int_x()?,
    }
    Ok(())
}

/// "A vector of 3-octet digests": of another length, its last digest passes the vector's end.
fn read_digests(reader: &mut Reader) -> Result<(), u8> {
    let digests = reader.vector()?;
    if !digests.remaining().is_multiple_of(DIGEST_LENGTH) {
        return Err(CUT);
    }
    Ok(())
}
