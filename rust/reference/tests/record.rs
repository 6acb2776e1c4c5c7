//! The bit layout of a record (document 01, "The store").

#![allow(clippy::unusual_byte_groupings)] // bits are grouped by field

mod common;

use common::stores::*;
use reference::{decode, encode, Record, Rectangle, SLOTS, SLOT_LENGTH, STORE_LENGTH};

/// Fields of any bits at all, but without padding.
fn any_fields(numbers: &mut Numbers) -> Fields {
    Fields {
        id: numbers.next(),
        issuer: numbers.next(),
        state: numbers.below(1 << 2),
        kind: numbers.below(1 << 3),
        start: numbers.below(1 << 32),
        end: numbers.below(1 << 38),
        name_length: numbers.below(1 << 6),
        name: [0; 32].map(|_: u8| numbers.next() as u8),
        parity: numbers.below(2),
        key: [0; 32].map(|_: u8| numbers.next() as u8),
        rectangle_count: numbers.below(1 << 3),
        rectangles: [[0; 4]; 4].map(|edges| edges.map(|_: i32| numbers.next() as i32)),
        permission_count: numbers.below(1 << 5),
        permissions: [0; 16].map(|_: u64| numbers.below(1 << 28)),
        padding: 0,
    }
}

#[test]
fn lengths() {
    assert_eq!((STORE_LENGTH, SLOT_LENGTH, SLOTS), (13_568, 212, 64));
    assert_eq!(WIDTHS.iter().sum::<usize>(), 8 * SLOT_LENGTH);
}

/// Slot 1 of the page's example: authority 02.., issuer 01.., 100 to 900, name B1, permission 36;
/// then a rectangle from 1 north, -2 east (west edge) to -1, 2, and a key of 80 00.. with parity 1.
fn octets_by_hand() -> [u8; SLOT_LENGTH] {
    let mut expected = [0; SLOT_LENGTH];
    expected[..8].fill(2);
    expected[8..16].fill(1);
    // Bit 128: state 01, kind 010; bit 133: start 100, so three bits on in octets 17 to 20.
    expected[16] = 0b01_010_000;
    expected[19] = (100u16 << 3 >> 8) as u8;
    expected[20] = (100u16 << 3) as u8;
    // Bit 165: end 900 to bit 203, so its last three bits lead octet 25.
    expected[24] = (900u16 >> 3) as u8;
    // 900 ends in 100; bit 203: name length 000010, over octets 25 and 26.
    expected[25] = 0b100_00001;
    // Bit 208: the name length's last bit; bit 209: 42 is 0100_0010, 31 is 0011_0001.
    expected[26] = 0b0_0100001;
    expected[27] = 0b0_0011000;
    expected[28] = 0b1_0000000;
    // Bit 465: parity; bit 466: the key's first bit.
    expected[58] = 0b0_1_1_00000;
    // Bit 722: count 001; bit 725: north 1, its last five bits leading octet 94.
    expected[90] = 0b00_001_000;
    expected[94] = 0b00001_111;
    // West -2: bits 757 to 788 are ones but the last.
    expected[95..98].fill(0xff);
    expected[98] = 0b11110_111;
    // South -1, then east 2.
    expected[99..102].fill(0xff);
    expected[102] = 0b11111_000;
    expected[106] = 0b00010_000;
    // Bit 1237: count 00001; bit 1242: 36 in 28 bits, its last six leading octet 158.
    expected[155] = 0b01_000000;
    expected[158] = 0b100100_00;
    expected
}

#[test]
fn one_record_by_hand() {
    let mut by_hand = Record {
        id: [2; 8],
        issuer: [1; 8],
        state: 1,
        kind: 2,
        start: 100,
        end: 900,
        name_length: 2,
        parity: 1,
        rectangle_count: 1,
        permission_count: 1,
        ..Record::default()
    };
    by_hand.name[..2].copy_from_slice(b"B1");
    by_hand.key[0] = 0x80;
    by_hand.rectangles[0] = Rectangle {
        north: 1,
        west: -2,
        south: -1,
        east: 2,
    };
    by_hand.permissions[0] = 36;
    assert_eq!(encode(&by_hand), octets_by_hand());
    assert_eq!(decode(&octets_by_hand()), by_hand);
    assert_eq!(by_hand.name(), b"B1");
    assert_eq!(by_hand.permissions(), [36]);
    assert_eq!(by_hand.rectangles().len(), 1);
}

/// Any bits are taken apart and put together again, whether or not they keep a store's rules.
#[test]
fn any_fields_both_ways() {
    let mut numbers = Numbers(0x9876_5432_1234_5678);
    for _ in 0..2_000 {
        let fields = any_fields(&mut numbers);
        let slot = fields.slot();
        assert_eq!(decode(&slot), fields.record());
        assert_eq!(encode(&fields.record()), slot);
    }
}

/// Each bit of a slot but the padding's is a bit of one field.
#[test]
fn each_bit_both_ways() {
    for bit in 0..8 * SLOT_LENGTH {
        let mut slot = [0; SLOT_LENGTH];
        flip(&mut slot, bit);
        let is_padding = bit >= first_bit(PADDING_FIELD);
        assert_eq!(decode(&slot) == Record::default(), is_padding, "{bit}");
        assert_eq!(encode(&decode(&slot)) == slot, !is_padding, "{bit}");
    }
}

#[test]
fn a_number_too_wide_stays_in_its_field() {
    let wide = Record {
        state: 0xfc,
        kind: 0xf8,
        end: !0 << 38,
        name_length: 64,
        parity: 2,
        rectangle_count: 8,
        permission_count: 32,
        permissions: [0xf000_0000; 16],
        ..Record::default()
    };
    assert_eq!(encode(&wide), [0; SLOT_LENGTH]);
}

/// A count that no valid store has gives all there is.
#[test]
fn counts_beyond_the_room() {
    let record = decode(&[0xff; SLOT_LENGTH]);
    assert_eq!((record.state, record.kind), (3, 7));
    assert_eq!(record.end, (1 << 38) - 1);
    assert_eq!((record.name_length, record.name().len()), (63, 32));
    assert_eq!((record.rectangle_count, record.rectangles().len()), (7, 4));
    assert_eq!(
        (record.permission_count, record.permissions().len()),
        (31, 16)
    );
}
