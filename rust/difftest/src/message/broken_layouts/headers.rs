//! Faults of the headers.

use super::{written, CUT, MALFORMED, TOO_LARGE, UNSUPPORTED};
use crate::draft::Item;
use crate::message::layout::Layout;
use crate::message::{places, Location, Message};
use crate::random::Random;
use crate::wire;

pub fn no_signer(message: &Message, _: &mut Random) -> (Vec<u8>, u8) {
    let mut layout = Layout::of(message);
    layout.headers.remove(0);
    (written(&layout), MALFORMED)
}

/// Signer 0, self, is one of a certificate alone.
pub fn signer_type(message: &Message, random: &mut Random) -> (Vec<u8>, u8) {
    let mut layout = Layout::of(message);
    layout.headers[0][1] = Item::Type(random.pick(&[0, 3, 4, 128, 255]));
    (written(&layout), UNSUPPORTED)
}

pub fn exchanged(message: &Message, random: &mut Random) -> (Vec<u8>, u8) {
    let mut layout = Layout::of(message);
    let count = layout.headers.len();
    let one = random.below(count);
    layout
        .headers
        .swap(one, (one + 1 + random.below(count - 1)) % count);
    (written(&layout), MALFORMED)
}

/// Behind itself, at once or later.
pub fn repeated(message: &Message, random: &mut Random) -> (Vec<u8>, u8) {
    let mut layout = Layout::of(message);
    let count = layout.headers.len();
    let one = random.below(count);
    let copy = layout.headers[one].clone();
    layout
        .headers
        .insert(one + 1 + random.below(count - one), copy);
    (written(&layout), MALFORMED)
}

pub fn unknown_header(message: &Message, random: &mut Random) -> (Vec<u8>, u8) {
    let mut layout = Layout::of(message);
    let unknown = Item::Type(random.pick(&[6, 7, 32, 33, 127, 129, 130, 131, 254, 255]));
    let at = random.below(layout.headers.len() + 1);
    let count = random.below(10);
    let octets = Item::Run(random.octets(count));
    layout.headers.insert(at, vec![unknown, octets]);
    (written(&layout), UNSUPPORTED)
}

pub fn location(message: &Message, random: &mut Random) -> (Vec<u8>, u8) {
    let location = Location {
        place: places::out_of_range(random),
        elevation: random.array(),
    };
    let message = Message {
        location: Some(location),
        ..message.clone()
    };
    (written(&Layout::of(&message)), MALFORMED)
}

/// The layout with a header 4 that has this behind its type.
fn with_digests(message: &Message, digests: Item) -> Layout {
    let message = Message {
        digests: Some(Vec::new()),
        ..message.clone()
    };
    let mut layout = Layout::of(&message);
    let at = layout.headers.len() - 2;
    layout.headers[at] = vec![Item::Type(4), digests];
    layout
}

pub fn ragged_digests(message: &Message, random: &mut Random) -> (Vec<u8>, u8) {
    let length = 3 * random.below(50) + 1 + random.below(2);
    let octets = Item::Run(random.octets(length));
    let layout = with_digests(message, Item::Vector(vec![octets], 0));
    (written(&layout), CUT)
}

/// Behind its length there are the its_aid's type and at most four octets.
pub fn long_digests(message: &Message, random: &mut Random) -> (Vec<u8>, u8) {
    let most = 6 + random.below(100) as u32;
    let length = wire::intx(most, wire::shortest(most));
    (written(&with_digests(message, Item::Run(length))), CUT)
}

fn with_its_aid(message: &Message, its_aid: Option<Item>) -> Vec<u8> {
    let mut layout = Layout::of(message);
    layout.headers.pop();
    let header = [Item::Type(5)].into_iter().chain(its_aid);
    layout.headers.push(header.collect());
    written(&layout)
}

pub fn its_aid_longer(message: &Message, random: &mut Random) -> (Vec<u8>, u8) {
    let (value, longer) = random.pick(&[(0, 1), (36, 3), (127, 2), (128, 1), (16_383, 2)]);
    let its_aid = Item::IntX(value, longer);
    (with_its_aid(message, Some(its_aid)), MALFORMED)
}

pub fn its_aid_too_large(message: &Message, random: &mut Random) -> (Vec<u8>, u8) {
    let count = random.below(5);
    let octets = [vec![random.pick(&TOO_LARGE)], random.octets(count)].concat();
    let its_aid = Item::Run(octets);
    (with_its_aid(message, Some(its_aid)), UNSUPPORTED)
}

pub fn its_aid_cut(message: &Message, random: &mut Random) -> (Vec<u8>, u8) {
    let pieces: [Option<&[u8]>; 5] = [
        None,
        Some(&[0x80]),
        Some(&[0xc0, 0x40]),
        Some(&[0xe0, 0x20, 0]),
        Some(&[0xef]),
    ];
    let piece = random
        .pick(&pieces)
        .map(|octets| Item::Run(octets.to_vec()));
    (with_its_aid(message, piece), CUT)
}
