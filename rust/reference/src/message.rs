//! The signed message (001, clauses 5.1 to 5.7; document 01, "The signed message").

use crate::constants::{MALFORMED, TOO_LONG};
use crate::headers::{read_headers, Headers};
use crate::octets::{Part, Reader};
use crate::signature::{read_ecdsa_signature, ECDSA_NISTP256};

const MAXIMUM_LENGTH: usize = 2_048;
const PROTOCOL_VERSION: u8 = 2;
const PAYLOAD_SIGNED: u8 = 1;
const TRAILER_SIGNATURE: u8 = 1;

pub(crate) struct Message {
    pub(crate) headers: Headers,
    pub(crate) payload: Part,
    /// The whole signature structure. "The signature covers octet 0 up to where the signature
    /// structure begins, after its trailer type octet."
    pub(crate) signature: Part,
}

impl Message {
    pub(crate) const EMPTY: Message = Message {
        headers: Headers::EMPTY,
        payload: Part::EMPTY,
        signature: Part::EMPTY,
    };
}

/// Reads a message that is all of `octets` into an empty one, or gives the number of its refusal.
pub(crate) fn read_message(octets: &[u8], message: &mut Message) -> Result<(), u8> {
    if octets.len() > MAXIMUM_LENGTH {
        return Err(TOO_LONG);
    }
    let mut reader = Reader::new(octets);
    reader.one_of(&[PROTOCOL_VERSION])?;
    let headers_complete = read_headers(reader.vector()?, &mut message.headers)?;
    // A missing header counts at its vector's end, where the payload type's own 4 or 6 comes first.
    reader.one_of(&[PAYLOAD_SIGNED])?;
    if !headers_complete {
        return Err(MALFORMED);
    }
    message.payload = reader.vector()?.rest();
    message.signature = read_trailer(reader.vector()?)?;
    if !reader.is_at_end() {
        return Err(MALFORMED);
    }
    Ok(())
}

/// "Trailer vector holding one signature (type 1)": without one, or with octets left over, it is
/// malformed.
fn read_trailer(mut reader: Reader) -> Result<Part, u8> {
    if reader.is_at_end() {
        return Err(MALFORMED);
    }
    reader.one_of(&[TRAILER_SIGNATURE])?;
    let start = reader.position();
    reader.one_of(&[ECDSA_NISTP256])?;
    read_ecdsa_signature(&mut reader)?;
    if !reader.is_at_end() {
        return Err(MALFORMED);
    }
    Ok(reader.since(start))
}
