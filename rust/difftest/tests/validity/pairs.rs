//! Two filled slots with one id.

use difftest::entry::{Entry, HELD, WITHDRAWN};
use difftest::slot::STORE_LENGTH;

use crate::judge::is_valid;
use crate::stores::{large, put, small};

const STATES: [[u8; 2]; 4] = [
    [HELD, HELD],
    [HELD, WITHDRAWN],
    [WITHDRAWN, HELD],
    [WITHDRAWN, WITHDRAWN],
];
const PLACES: [[usize; 2]; 5] = [[0, 1], [0, 63], [30, 31], [17, 48], [62, 63]];

fn store(ids: [[u8; 8]; 2], states: [u8; 2], places: [usize; 2]) -> Vec<u8> {
    let mut store = vec![0; STORE_LENGTH];
    for (i, base) in [small(), large()].into_iter().enumerate() {
        let entry = Entry {
            id: ids[i],
            state: states[i],
            ..base
        };
        put(&mut store, places[i], &entry.image());
    }
    store
}

#[test]
fn one_id_twice() {
    for places in PLACES {
        for states in STATES {
            for id in [[0; 8], [0xff; 8], *b"same ids"] {
                let what = format!("id {id:02x?} at {places:?}, states {states:?}");
                assert!(!is_valid(&store([id, id], states, places), &what), "{what}");
                for bit in 0..64 {
                    let mut other = id;
                    other[bit / 8] ^= 1 << (bit % 8);
                    let what = format!("{what}, bit {bit} of one changed");
                    assert!(
                        is_valid(&store([id, other], states, places), &what),
                        "{what}"
                    );
                }
            }
        }
    }
}

/// The empty slots do not share the id zero with a filled one.
#[test]
fn id_zero_once() {
    for place in [0, 1, 40, 63] {
        let mut store = vec![0; STORE_LENGTH];
        put(
            &mut store,
            place,
            &Entry {
                id: [0; 8],
                ..small()
            }
            .image(),
        );
        assert!(is_valid(&store, "id zero"), "id zero in slot {place}");
    }
}

/// The id of one entry may be the issuer of another, or its own.
#[test]
fn ids_and_issuers() {
    for state in [HELD, WITHDRAWN] {
        let one = Entry { state, ..small() };
        let below = Entry {
            id: [1; 8],
            issuer: one.id,
            ..large()
        };
        let ring = Entry {
            issuer: below.id,
            ..one
        };
        let own = Entry {
            id: [2; 8],
            issuer: [2; 8],
            ..small()
        };
        let mut store = vec![0; STORE_LENGTH];
        for (place, entry) in [below, ring, own].iter().enumerate() {
            put(&mut store, place, &entry.image());
        }
        assert!(is_valid(&store, "a ring"), "a ring, state {state}");
    }
}
