//! The rules of a store once more, slowly and number by number, on slots damaged at random.

mod common;

use common::stores::*;
use reference::{store_is_valid, SLOT_LENGTH};

/// Takes the next `width` bits, at most 64.
fn take(bits: &mut impl Iterator<Item = bool>, width: usize) -> u64 {
    (0..width).fold(0, |number, _| number << 1 | u64::from(bits.next().unwrap()))
}

/// The numbers of a slot, one after the other.
fn read_slot(slot: &[u8; SLOT_LENGTH]) -> Fields {
    let mut bits = slot
        .iter()
        .flat_map(|octet| (0..8).map(move |bit| octet >> (7 - bit) & 1 == 1));
    let bits = &mut bits;
    let fields = Fields {
        id: take(bits, 64),
        issuer: take(bits, 64),
        state: take(bits, 2),
        kind: take(bits, 3),
        start: take(bits, 32),
        end: take(bits, 38),
        name_length: take(bits, 6),
        name: [0; 32].map(|_: u8| take(bits, 8) as u8),
        parity: take(bits, 1),
        key: [0; 32].map(|_: u8| take(bits, 8) as u8),
        rectangle_count: take(bits, 3),
        rectangles: [[0; 4]; 4].map(|edges| edges.map(|_: i32| take(bits, 32) as u32 as i32)),
        permission_count: take(bits, 5),
        permissions: [0; 16].map(|_: u64| take(bits, 28)),
        padding: take(bits, 6),
    };
    assert!(bits.next().is_none());
    fields
}

/// "-900,000,000 to 900,000,000 and -1,800,000,000 to 1,800,000,000"; "north must exceed south, and
/// the east edge the west edge".
fn rectangle_by_the_rules(&[north, west, south, east]: &[i32; 4]) -> bool {
    [north, south].iter().all(|x| x.abs_diff(0) <= 900_000_000)
        && [west, east].iter().all(|x| x.abs_diff(0) <= 1_800_000_000)
        && north > south
        && east > west
}

/// Document 01, "The store", on the numbers of a filled slot.
fn filled_by_the_rules(slot: &Fields) -> bool {
    let kind_and_issuer = match slot.kind {
        1 | 2 => true,
        4 => slot.issuer == 0,
        _ => false,
    };
    let counts = [
        slot.name_length,
        slot.rectangle_count,
        slot.permission_count,
    ];
    if counts[0] > 32 || counts[1] > 4 || counts[2] > 16 {
        return false;
    }
    let [name, rectangles, permissions] = counts.map(|count| count as usize);
    (slot.state == 1 || slot.state == 2)
        && kind_and_issuer
        && (slot.start < slot.end && slot.end <= LATEST_END)
        && slot.name[name..].iter().all(|octet| *octet == 0)
        && (slot.rectangles[..rectangles].iter()).all(rectangle_by_the_rules)
        && (slot.rectangles[rectangles..].iter()).all(|edges| *edges == [0; 4])
        && (slot.permissions[permissions..].iter()).all(|number| *number == 0)
        && slot.padding == 0
}

/// "An empty slot is all zero."
fn by_the_rules(slot: &[u8; SLOT_LENGTH]) -> bool {
    *slot == [0; SLOT_LENGTH] || filled_by_the_rules(&read_slot(slot))
}

/// A good record, its numbers often at an edge of what is allowed.
fn some_fields(numbers: &mut Numbers) -> Fields {
    let [name, rectangles, permissions] = [33, 5, 17].map(|limit| numbers.below(limit) as usize);
    let mut fields = Fields::with_counts(numbers.next(), name, rectangles, permissions);
    fields.state = 1 + numbers.below(2);
    fields.kind = 1 << numbers.below(3);
    if fields.kind == 4 {
        fields.issuer = 0;
    }
    fields.end = [101, 900, LATEST_END][numbers.below(3) as usize];
    for edges in &mut fields.rectangles[..rectangles] {
        let world = [900_000_000, -1_800_000_000, -900_000_000, 1_800_000_000];
        let least = [1, -1, 0, 0];
        *edges = [world, least, *edges][numbers.below(3) as usize];
    }
    fields
}

#[test]
fn damaged_slots() {
    let mut numbers = Numbers(0x1357_9bdf_0246_8ace);
    let mut store = empty_store();
    let mut seen = [0; 2];
    for _ in 0..10_000 {
        let mut slot = some_fields(&mut numbers).slot();
        assert!(by_the_rules(&slot));
        for _ in 0..numbers.below(3) {
            flip(&mut slot, numbers.below(8 * 212) as usize);
        }
        // Half of the damage goes to the numbers between the issuer and the name.
        if numbers.below(2) == 0 {
            flip(&mut slot, 128 + numbers.below(81) as usize);
        }
        set_slot(&mut store, 5, &slot);
        let expected = by_the_rules(&slot);
        assert_eq!(store_is_valid(&store), expected, "{slot:?}");
        seen[usize::from(expected)] += 1;
    }
    assert!(seen.iter().all(|count| *count > 2_000), "{seen:?}");
}
