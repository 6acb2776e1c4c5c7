//! Entries and stores to change.

use difftest::entry::{Entry, HELD};
use difftest::plan::{AUTHORITY, MOST_INTX};
use difftest::random::Random;
use difftest::slot::{Slot, SLOTS, SLOT_LENGTH, STORE_LENGTH};

/// The first, a middle and the last slot.
pub const PLACES: [usize; 3] = [0, 31, SLOTS - 1];

/// An authority with as much as a slot takes.
pub fn large() -> Entry {
    Entry {
        id: [0xa1; 8],
        issuer: [0xb2; 8],
        state: HELD,
        kind: AUTHORITY,
        start: 1_000,
        end: 5_000_000_000,
        name: (1..=32).collect(),
        parity: 1,
        key: [0xc3; 32],
        rectangles: (1..=4)
            .map(|i| [10 * i, -20 * i, -10 * i, 20 * i])
            .collect(),
        permissions: (0..16).map(|i| MOST_INTX - i).collect(),
    }
}

/// An authority with little.
pub fn small() -> Entry {
    Entry {
        end: 2_000,
        name: b"unit".to_vec(),
        rectangles: vec![[3, -2, -1, 4]],
        permissions: vec![36, 37],
        ..large()
    }
}

/// What else a store holds.
#[derive(Clone, Copy, Debug)]
pub enum Others {
    None,
    EverySecond,
    All,
}

/// A store that is valid with any valid slot at a place, if no other has its
/// id.
pub fn around(place: usize, others: Others) -> Vec<u8> {
    let mut store = vec![0; STORE_LENGTH];
    let filled = |slot: &usize| match others {
        Others::None => false,
        Others::EverySecond => slot.is_multiple_of(2),
        Others::All => true,
    };
    for slot in (0..SLOTS).filter(filled).filter(|&slot| slot != place) {
        let entry = Entry::random(&mut Random::for_case(4, slot as u64));
        put(&mut store, slot, &entry.image());
    }
    store
}

pub fn put(store: &mut [u8], place: usize, slot: &Slot) {
    store[place * SLOT_LENGTH..][..SLOT_LENGTH].copy_from_slice(slot);
}
