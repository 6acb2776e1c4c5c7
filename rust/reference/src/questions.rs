//! Prepare a message: its signature questions (document 01, "Order of checks").

use crate::checks::{check, Call};
use crate::constants::UNKNOWN;
use crate::decode::decode;
use crate::headers::Embedded;
use crate::message::Message;
use crate::octets::Part;
use crate::record::Record;
use crate::store::{find, slots};

/// "Signed range, key (point type and 32 octets) and the whole signature structure"; the parts are
/// the message's.
#[derive(Clone, Copy, Debug, PartialEq, Eq, Default)]
pub struct Question {
    pub signed: Part,
    /// 2 or 3.
    pub point_type: u8,
    pub key: [u8; 32],
    pub signature: Part,
}

/// "For the message and for an embedded certificate; without one, the latter are empty parts at
/// octet 0 and zeros."
#[derive(Clone, Copy, Debug, PartialEq, Eq, Default)]
pub struct Prepared {
    pub message: Question,
    pub certificate: Question,
}

/// The questions for the chip, or the number of the refusal "as decide with good verdicts".
pub fn prepare(call: &Call) -> Result<Prepared, u8> {
    let mut message = Message::EMPTY;
    let signer = check(call, &mut message)?;
    let certificate = match &message.headers.embedded {
        Some(embedded) => certificate_question(call.store, embedded, &signer)?,
        None => Question::default(),
    };
    Ok(Prepared {
        message: question(0, message.signature, &signer),
        certificate,
    })
}

/// The signer's certificate was signed by its issuer, which is stored where the walk passed.
fn certificate_question(
    store: &[u8],
    embedded: &Embedded,
    signer: &Record,
) -> Result<Question, u8> {
    let slot = find(store, &signer.issuer).ok_or(UNKNOWN)?;
    let issuer = decode(&slots(store)[slot]);
    let signature = embedded.certificate.signature;
    Ok(question(embedded.start, signature, &issuer))
}

/// The signed range reaches from `start` to the signature.
fn question(start: usize, signature: Part, key_owner: &Record) -> Question {
    Question {
        signed: Part {
            start,
            length: signature.start - start,
        },
        point_type: key_owner.parity + 2,
        key: key_owner.key,
        signature,
    }
}
