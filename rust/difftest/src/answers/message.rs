//! Answer lines about a message.

use nattveldi::raw::{octet_at, ACCEPTED, DECISION_LENGTH, QUESTIONS_LENGTH};

use crate::hex;
use crate::judgements::Judged;

/// `NUMBER` and two questions, each `SIGNED_START,LENGTH POINT_TYPE KEY
/// SIGNATURE_START,LENGTH`; zeros in a refusal.
pub fn prepared(answer: &Judged) -> String {
    let octets = written::<QUESTIONS_LENGTH>(answer);
    let question = |at: usize| {
        let octets = &octets[at..][..octet_at::CERTIFICATE_QUESTION];
        let word = |at| number(&octets[at..at + 4]);
        let part = |at| format!("{},{}", word(at), word(at + 4));
        format!(
            "{} {} {} {}",
            part(octet_at::QUESTION_SIGNED),
            word(octet_at::QUESTION_KEY_TYPE),
            hex::text(&octets[octet_at::QUESTION_KEY..]),
            part(octet_at::QUESTION_SIGNATURE)
        )
    };
    format!(
        "{} {} {}",
        answer.number,
        question(octet_at::MESSAGE_QUESTION),
        question(octet_at::CERTIFICATE_QUESTION)
    )
}

/// `NUMBER PAYLOAD_START PAYLOAD_LENGTH SIGNER_ID PERMISSION GENERATION_TIME`;
/// zeros in a refusal.
pub fn decided(answer: &Judged) -> String {
    let octets = written::<DECISION_LENGTH>(answer);
    let (payload, rest) = octets.split_at(octet_at::DECISION_SIGNER);
    let (signer, rest) = rest.split_at(8);
    let (permission, generation_time) = rest.split_at(4);
    format!(
        "{} {} {} {} {} {}",
        answer.number,
        number(&payload[..4]),
        number(&payload[4..]),
        hex::text(signer),
        number(permission),
        number(generation_time)
    )
}

/// What an accepted call wrote; zeros in a refusal.
fn written<const N: usize>(answer: &Judged) -> [u8; N] {
    match answer.number {
        ACCEPTED => std::array::from_fn(|at| answer.buffer[at]),
        _ => [0; N],
    }
}

/// A big-endian number of up to eight octets.
fn number(octets: &[u8]) -> u64 {
    octets
        .iter()
        .fold(0, |number, &octet| number << 8 | u64::from(octet))
}
