//! Decide a message (document 01, "Order of checks").

use crate::checks::{check, Call};
use crate::constants::{GOOD_VERDICT, SIGNATURE};
use crate::message::Message;
use crate::octets::Part;

/// "Accepted messages give the payload as a part of the caller's message, the signer's id,
/// permission and generation time."
#[derive(Clone, Copy, Debug, PartialEq, Eq)]
pub struct Decision {
    pub payload: Part,
    pub signer: [u8; 8],
    pub permission: u32,
    pub generation_time: u64,
}

/// Decides a message by the chip's verdicts, or gives the number of its refusal.
pub fn decide(call: &Call, verdict: u8, certificate_verdict: u8) -> Result<Decision, u8> {
    let mut message = Message::EMPTY;
    let signer = check(call, &mut message)?;
    let headers = &message.headers;
    // "Embedded certificate's verdict 15; message verdict 15", the first "ignored without one".
    if headers.embedded.is_some() && certificate_verdict != GOOD_VERDICT {
        return Err(SIGNATURE);
    }
    if verdict != GOOD_VERDICT {
        return Err(SIGNATURE);
    }
    Ok(Decision {
        payload: message.payload,
        signer: signer.id,
        permission: headers.its_aid,
        generation_time: headers.generation_time,
    })
}
