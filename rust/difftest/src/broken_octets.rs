//! Damage to octets: a certificate's or a message's.

use crate::plan::{MOST_LATITUDE, MOST_LONGITUDE};
use crate::random::Random;
use crate::wire::{Field, Mark, Wire};

type Damage = fn(&mut Wire, &mut Random);

/// Every damage and its name.
pub const ALL: [(&str, Damage); 14] = [
    ("one octet changed", change_octet),
    ("one bit changed", change_bit),
    ("octets deleted", delete),
    ("octets inserted", insert),
    ("truncated", truncate),
    ("extended", extend),
    ("two spans swapped", swap_spans),
    ("a span repeated", repeat_span),
    ("a length changed", change_length),
    ("a type changed", change_type),
    ("an IntX changed", change_intx),
    ("a coordinate at or beyond the edge", change_coordinate),
    ("a time changed", change_time),
    ("a duration changed", change_duration),
];

/// Does one kind of damage to what was written.
pub fn apply(damage: Damage, mut wire: Wire, random: &mut Random) -> Vec<u8> {
    damage(&mut wire, random);
    wire.octets
}

fn change_octet(wire: &mut Wire, random: &mut Random) {
    let at = random.below(wire.octets.len());
    wire.octets[at] = random.octet();
}

fn change_bit(wire: &mut Wire, random: &mut Random) {
    let at = random.below(wire.octets.len());
    wire.octets[at] ^= 1 << random.below(8);
}

fn delete(wire: &mut Wire, random: &mut Random) {
    let span = span(wire.octets.len(), 4, random);
    wire.octets.drain(span);
}

fn insert(wire: &mut Wire, random: &mut Random) {
    let at = random.below(wire.octets.len() + 1);
    let count = 1 + random.below(4);
    let new = random.octets(count);
    wire.octets.splice(at..at, new);
}

fn truncate(wire: &mut Wire, random: &mut Random) {
    let length = random.below(wire.octets.len());
    wire.octets.truncate(length);
}

fn extend(wire: &mut Wire, random: &mut Random) {
    let count = 1 + random.below(20);
    let new = random.octets(count);
    wire.octets.extend(new);
}

/// Swaps two spans of one length that do not overlap.
fn swap_spans(wire: &mut Wire, random: &mut Random) {
    let length = 1 + random.below(40.min(wire.octets.len() / 2));
    let first = random.below(wire.octets.len() - 2 * length + 1);
    let second = first + length + random.below(wire.octets.len() - first - 2 * length + 1);
    for i in 0..length {
        wire.octets.swap(first + i, second + i);
    }
}

fn repeat_span(wire: &mut Wire, random: &mut Random) {
    let span = span(wire.octets.len(), 40, random);
    let copy = wire.octets[span.clone()].to_vec();
    wire.octets.splice(span.end..span.end, copy);
}

fn change_length(wire: &mut Wire, random: &mut Random) {
    let mark = wire.pick(Field::Length, random);
    change_number(wire, mark, random);
}

fn change_intx(wire: &mut Wire, random: &mut Random) {
    let mark = wire.pick(Field::IntX, random);
    change_number(wire, mark, random);
}

/// A little more or less, or an octet at an edge of the IntX encoding.
fn change_number(wire: &mut Wire, mark: Option<Mark>, random: &mut Random) {
    const EDGES: [u8; 12] = [
        0x00, 0x01, 0x7f, 0x80, 0xbf, 0xc0, 0xdf, 0xe0, 0xef, 0xf0, 0xf8, 0xff,
    ];
    let Some(mark) = mark else {
        return change_octet(wire, random);
    };
    let last = mark.at + mark.length - 1;
    match random.below(3) {
        0 => {
            wire.octets[last] =
                wire.octets[last].wrapping_add(random.pick(&[1, 2, 16, 255, 254, 240]))
        }
        1 => wire.octets[mark.at] = random.pick(&EDGES),
        _ => wire.octets[mark.at] = random.octet(),
    }
}

fn change_type(wire: &mut Wire, random: &mut Random) {
    const TYPES: [u8; 16] = [0, 1, 2, 3, 4, 5, 6, 7, 32, 33, 34, 0x33, 128, 129, 254, 255];
    if let Some(mark) = wire.pick(Field::Type, random) {
        wire.octets[mark.at] = random.pick(&TYPES);
    }
}

fn change_coordinate(wire: &mut Wire, random: &mut Random) {
    let (field, most) = random.pick(&[
        (Field::Latitude, MOST_LATITUDE),
        (Field::Longitude, MOST_LONGITUDE),
    ]);
    let Some(mark) = wire.pick(field, random) else {
        return change_octet(wire, random);
    };
    // One beyond each end, the ends, "unavailable", and the type's own ends.
    let value = random.pick(&[
        most + 1,
        -most - 1,
        most,
        -most,
        i32::MAX,
        i32::MIN,
        -1,
        0,
        1,
    ]);
    overwrite(wire, mark, &value.to_be_bytes());
}

fn change_time(wire: &mut Wire, random: &mut Random) {
    let Some(mark) = wire.pick(Field::Time, random) else {
        return change_octet(wire, random);
    };
    let other = wire.pick(Field::Time, random).unwrap_or(mark);
    let value = match random.below(2) {
        0 => wire.octets[other.at..other.at + 4].to_vec(),
        _ => random.pick(&[0_u32, 1, u32::MAX]).to_be_bytes().to_vec(),
    };
    overwrite(wire, mark, &value);
}

/// Any unit, 5 to 7 too, and often the count 0.
fn change_duration(wire: &mut Wire, random: &mut Random) {
    let Some(mark) = wire.pick(Field::Duration, random) else {
        return change_octet(wire, random);
    };
    let count = random.pick(&[0_u16, 0, 1, 8_191]);
    let unit = random.below(8) as u16;
    overwrite(wire, mark, &(unit << 13 | count).to_be_bytes());
}

fn overwrite(wire: &mut Wire, mark: Mark, octets: &[u8]) {
    wire.octets[mark.at..mark.at + octets.len()].copy_from_slice(octets);
}

/// A span of 1 to `most` octets.
fn span(length: usize, most: usize, random: &mut Random) -> std::ops::Range<usize> {
    let count = 1 + random.below(most.min(length));
    let start = random.below(length - count + 1);
    start..start + count
}
