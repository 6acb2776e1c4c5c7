//! Headers of which a required one is lacking. That is found where they end, after
//! a fault of the next field there.

use super::{written, CUT, MALFORMED, TOO_LARGE, UNSUPPORTED};
use crate::draft::Item;
use crate::message::layout::Layout;
use crate::message::Message;
use crate::random::Random;

/// Without the generation time, the its_aid or both.
fn without_required(message: &Message, random: &mut Random) -> Layout {
    let mut layout = Layout::of(message);
    let which = random.below(3);
    if which != 0 {
        layout.headers.pop();
    }
    if which != 1 {
        layout.headers.remove(1);
    }
    layout
}

pub fn alone(message: &Message, random: &mut Random) -> (Vec<u8>, u8) {
    (written(&without_required(message, random)), MALFORMED)
}

/// The next field stands where the lacking one is missed: its 6 comes first.
pub fn then_type(message: &Message, random: &mut Random) -> (Vec<u8>, u8) {
    let mut layout = without_required(message, random);
    layout.payload_type = Item::Type(random.pick(&[0, 2, 3, 4, 128, 255]));
    (written(&layout), UNSUPPORTED)
}

/// One octet further on is too late.
pub fn then_further(message: &Message, random: &mut Random) -> (Vec<u8>, u8) {
    let written = without_required(message, random).write();
    let length_at = written.headers.end + 1;
    let mut octets = written.wire.octets;
    match random.below(2) {
        0 => octets.truncate(length_at),
        _ => octets[length_at] = random.pick(&TOO_LARGE),
    }
    (octets, MALFORMED)
}

/// The next field is cut where the lacking one is missed: that comes first.
pub fn then_end(message: &Message, random: &mut Random) -> (Vec<u8>, u8) {
    let written = without_required(message, random).write();
    let mut octets = written.wire.octets;
    octets.truncate(written.headers.end);
    (octets, CUT)
}

pub fn no_headers(message: &Message, random: &mut Random) -> (Vec<u8>, u8) {
    let mut layout = Layout::of(message);
    layout.headers.clear();
    let is_known = random.once_in(2);
    if is_known {
        return (written(&layout), MALFORMED);
    }
    layout.payload_type = Item::Type(random.pick(&[0, 2, 255]));
    (written(&layout), UNSUPPORTED)
}
