//! Messages built by hand, field by field, from 001 clauses 4.2.10 and 5.1 to 5.7.

use super::stores::empty_store;
use super::{int_x, signature, vector};
use reference::constants::UNKNOWN;
use reference::{decide, Call};

/// The signer's id of the drafts.
pub const SIGNER: [u8; 8] = [3; 8];

/// The generation time of the drafts, in microseconds.
pub const GENERATION: u64 = 250_000_000;

/// What a message that reads gives with an empty store: its signer or its issuer is unknown.
pub const READS: u8 = UNKNOWN;

/// The pieces of a message; vectors without their lengths.
#[derive(Clone)]
pub struct MessageDraft {
    pub version: u8,
    pub headers: Vec<u8>,
    pub payload_type: u8,
    pub payload: Vec<u8>,
    pub trailer: Vec<u8>,
}

impl MessageDraft {
    pub fn octets(&self) -> Vec<u8> {
        [
            vec![self.version],
            vector(&self.headers),
            vec![self.payload_type],
            vector(&self.payload),
            vector(&self.trailer),
        ]
        .concat()
    }

    /// The answer with an empty store.
    pub fn number(&self) -> u8 {
        message_number(&self.octets())
    }
}

/// The answer to a message with an empty store, asked at the drafts' generation time.
pub fn message_number(message: &[u8]) -> u8 {
    let call = Call {
        store: &empty_store(),
        message,
        now: GENERATION,
        latitude: 0,
        longitude: 0,
        age: 0,
    };
    decide(&call, 1, 1).unwrap_err()
}

/// Header 128 with an id.
pub fn signer_id(id: [u8; 8]) -> Vec<u8> {
    [vec![128, 1], id.to_vec()].concat()
}

/// Header 128 with a certificate.
pub fn signer_certificate(certificate: &[u8]) -> Vec<u8> {
    [&[128, 2], certificate].concat()
}

/// Header 0.
pub fn generation_time(time: u64) -> Vec<u8> {
    [vec![0], time.to_be_bytes().to_vec()].concat()
}

/// Header 1.
pub fn time_with_deviation(time: u64) -> Vec<u8> {
    [vec![1], time.to_be_bytes().to_vec(), vec![0xff]].concat()
}

/// Header 2.
pub fn expiration(second: u32) -> Vec<u8> {
    [vec![2], second.to_be_bytes().to_vec()].concat()
}

/// Header 3.
pub fn location(latitude: i32, longitude: i32) -> Vec<u8> {
    let place = [latitude, longitude].map(i32::to_be_bytes).concat();
    [vec![3], place, vec![0xf0, 0]].concat()
}

/// Header 4.
pub fn digests(contents: &[u8]) -> Vec<u8> {
    [vec![4], vector(contents)].concat()
}

/// Header 5.
pub fn its_aid(value: usize) -> Vec<u8> {
    [vec![5], int_x(value)].concat()
}

/// A signature in its trailer field.
pub fn trailer() -> Vec<u8> {
    [vec![1], signature(0)].concat()
}

/// A message with these headers and the payload "pay".
pub fn message(headers: &[Vec<u8>]) -> MessageDraft {
    MessageDraft {
        version: 2,
        headers: headers.concat(),
        payload_type: 1,
        payload: b"pay".to_vec(),
        trailer: trailer(),
    }
}

/// Signed by [`SIGNER`] at second 250 with permission 36.
pub fn by_id() -> MessageDraft {
    message(&[signer_id(SIGNER), generation_time(GENERATION), its_aid(36)])
}

/// The same with its signer's certificate.
pub fn embedding(certificate: &[u8]) -> MessageDraft {
    message(&[
        signer_certificate(certificate),
        generation_time(GENERATION),
        its_aid(36),
    ])
}

/// The headers behind the signer, all of them.
pub fn all_headers() -> [Vec<u8>; 6] {
    [
        generation_time(GENERATION),
        time_with_deviation(7),
        expiration(9_999),
        location(-1, 1),
        digests(&[1, 2, 3, 4, 5, 6]),
        its_aid(36),
    ]
}
