//! Faults of what is around the headers: version, lengths, payload and trailer.

use super::{written, CUT, MALFORMED, TOO_LARGE, UNSUPPORTED};
use crate::draft::Item;
use crate::message::layout::{Layout, Written};
use crate::message::Message;
use crate::random::Random;
use crate::wire;

pub fn version(message: &Message, random: &mut Random) -> (Vec<u8>, u8) {
    let mut layout = Layout::of(message);
    layout.version = Item::Type(random.pick(&[0, 1, 3, 4, 128, 255]));
    (written(&layout), UNSUPPORTED)
}

pub fn payload_type(message: &Message, random: &mut Random) -> (Vec<u8>, u8) {
    let mut layout = Layout::of(message);
    layout.payload_type = Item::Type(random.pick(&[0, 2, 3, 4, 128, 255]));
    (written(&layout), UNSUPPORTED)
}

pub fn empty_trailer(message: &Message, _: &mut Random) -> (Vec<u8>, u8) {
    let mut layout = Layout::of(message);
    layout.trailer.clear();
    (written(&layout), MALFORMED)
}

pub fn trailer_type(message: &Message, random: &mut Random) -> (Vec<u8>, u8) {
    let mut layout = Layout::of(message);
    layout.trailer[0] = Item::Type(random.pick(&[0, 2, 3, 128, 255]));
    (written(&layout), UNSUPPORTED)
}

/// Any octets, or a second signature.
pub fn behind_signature(message: &Message, random: &mut Random) -> (Vec<u8>, u8) {
    let mut layout = Layout::of(message);
    if random.once_in(2) {
        layout.trailer.extend(layout.trailer.clone());
    } else {
        let count = 1 + random.below(70);
        layout.trailer.push(Item::Run(random.octets(count)));
    }
    (written(&layout), MALFORMED)
}

/// A trailer vector that ends before its signature does.
pub fn cut_trailer(message: &Message, random: &mut Random) -> (Vec<u8>, u8) {
    let mut layout = Layout::of(message);
    let fields = 1 + random.below(4);
    layout.trailer.truncate(fields);
    if fields > 2 {
        let count = random.below(32);
        layout.trailer.push(Item::Run(random.octets(count)));
    }
    (written(&layout), CUT)
}

pub fn signature(message: &Message, random: &mut Random) -> (Vec<u8>, u8) {
    let mut layout = Layout::of(message);
    let (at, other) = random.pick(&[(1, 1), (1, 2), (1, 255), (2, 1), (2, 4), (2, 5), (2, 255)]);
    layout.trailer[at] = Item::Type(other);
    (written(&layout), UNSUPPORTED)
}

pub fn behind(message: &Message, random: &mut Random) -> (Vec<u8>, u8) {
    let mut octets = written(&Layout::of(message));
    let count = 1 + random.below(20);
    octets.extend(random.octets(count));
    (octets, MALFORMED)
}

pub fn prefix(message: &Message, random: &mut Random) -> (Vec<u8>, u8) {
    let mut octets = written(&Layout::of(message));
    octets.truncate(random.below(octets.len()));
    (octets, CUT)
}

pub fn length_longer(message: &Message, random: &mut Random) -> (Vec<u8>, u8) {
    let mut layout = Layout::of(message);
    layout.longer[random.below(3)] = 1 + random.below(2);
    (written(&layout), MALFORMED)
}

/// A length of more than 28 bits, or one that passes the end of the message.
pub fn length(message: &Message, random: &mut Random) -> (Vec<u8>, u8) {
    let Written {
        wire,
        headers,
        payload,
    } = Layout::of(message).write();
    let mut octets = wire.octets;
    let (at, vector) = random.pick(&[
        (1, headers.start),
        (headers.end + 1, payload.start),
        (payload.end, payload.end + 1),
    ]);
    if random.once_in(2) {
        octets[at] = random.pick(&TOO_LARGE);
        return (octets, UNSUPPORTED);
    }
    let most = (octets.len() - vector) as u32 + 1 + random.pick(&[0, 1, 300, 1 << 20]);
    octets.splice(at..vector, wire::intx(most, wire::shortest(most)));
    (octets, CUT)
}
