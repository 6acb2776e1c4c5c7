//! Faults of a message's layout, each with the number by which paper 01 refuses
//! it. Nothing before the fault is at fault.

mod frame;
mod headers;
mod lacking;

use super::layout::Layout;
use super::Message;
use crate::random::Random;

/// The octets of a message with a fault, and its number.
pub type Fault = fn(&Message, &mut Random) -> (Vec<u8>, u8);

pub const CUT: u8 = 4;
pub const MALFORMED: u8 = 5;
pub const UNSUPPORTED: u8 = 6;

/// First octets of an IntX that is not read here.
const TOO_LARGE: [u8; 4] = [0xf0, 0xf7, 0xf8, 0xff];

/// Every fault and its name.
pub const ALL: [(&str, Fault); 27] = [
    ("another version", frame::version),
    ("no signer", headers::no_signer),
    ("a signer of another type", headers::signer_type),
    ("headers exchanged", headers::exchanged),
    ("a header repeated", headers::repeated),
    ("a header of an unknown type", headers::unknown_header),
    ("a required header lacking", lacking::alone),
    ("lacking, and another payload type", lacking::then_type),
    ("lacking, and a fault further on", lacking::then_further),
    ("lacking, and the end", lacking::then_end),
    ("no headers", lacking::no_headers),
    ("another payload type", frame::payload_type),
    ("a location out of range", headers::location),
    ("ragged digests", headers::ragged_digests),
    ("digests that pass the headers", headers::long_digests),
    ("an its_aid that is not shortest", headers::its_aid_longer),
    (
        "an its_aid of more than 28 bits",
        headers::its_aid_too_large,
    ),
    ("an its_aid that is cut", headers::its_aid_cut),
    ("an empty trailer", frame::empty_trailer),
    ("a trailer of another type", frame::trailer_type),
    ("octets behind the signature", frame::behind_signature),
    ("a trailer that is cut", frame::cut_trailer),
    ("another signature", frame::signature),
    ("octets behind the message", frame::behind),
    ("a prefix", frame::prefix),
    ("a length that is not shortest", frame::length_longer),
    ("a length that is faulty", frame::length),
];

fn written(layout: &Layout) -> Vec<u8> {
    layout.write().wire.octets
}
