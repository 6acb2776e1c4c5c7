//! The walk from a certificate to its root (document 01, "How a chain is walked").

mod common;

use common::chains::*;
use common::stores::*;
use reference::constants::{
    CHAIN_TOO_LONG, NOT_PERMITTED, OUTSIDE_PERIOD, OUTSIDE_PLACE, UNKNOWN, WITHDRAWN, WRONG_KIND,
};
use reference::{decode, slots, walk};

/// The walk from `signer` at second 250, without a position.
fn answer(stored: &[Fields], signer: &Fields) -> Result<(), u8> {
    walk(&store_of(stored), &decode(&signer.slot()), 250, None)
}

/// Root, authority and ticket 3 of 200 to 300.
fn three() -> [Fields; 3] {
    [root(1), authority(2, 1), ticket(3, 2, 200, 300)]
}

#[test]
fn stored_or_not() {
    let stored = three();
    for signer in &stored {
        assert_eq!(answer(&stored, signer), Ok(()));
    }
    assert_eq!(answer(&stored[..2], &stored[2]), Ok(()));
    assert_eq!(answer(&stored[..1], &stored[1]), Ok(()));
    // A root asks for nothing in the store.
    assert_eq!(answer(&[], &stored[0]), Ok(()));
}

/// "Period 200 to 300: 299 in, 300 out."
#[test]
fn edges_of_the_period() {
    let [root, authority, ticket] = three();
    let store = store_of(&[root.clone(), authority.clone()]);
    let at = |signer: &Fields, second| walk(&store, &decode(&signer.slot()), second, None);
    for (signer, start, end) in [
        (&ticket, 200, 300),
        (&authority, 100, 900),
        (&root, 100, 1_000),
    ] {
        assert_eq!(at(signer, start - 1), Err(OUTSIDE_PERIOD));
        assert_eq!(at(signer, start), Ok(()));
        assert_eq!(at(signer, end - 1), Ok(()));
        assert_eq!(at(signer, end), Err(OUTSIDE_PERIOD));
        assert_eq!(at(signer, 0), Err(OUTSIDE_PERIOD));
        assert_eq!(at(signer, u64::MAX), Err(OUTSIDE_PERIOD));
    }
}

/// A second of more than 32 bits is not cut, and neither is an end.
#[test]
fn seconds_above_32_bits() {
    let mut signer = root(1);
    let mut at = |end, second| {
        signer.end = end;
        walk(&[], &decode(&signer.slot()), second, None)
    };
    assert_eq!(at(1_000, (1 << 32) + 250), Err(OUTSIDE_PERIOD));
    assert_eq!(at((1 << 32) + 250, (1 << 32) + 249), Ok(()));
    assert_eq!(at((1 << 32) + 250, (1 << 32) + 250), Err(OUTSIDE_PERIOD));
    assert_eq!(at(LATEST_END, LATEST_END - 1), Ok(()));
    assert_eq!(at(LATEST_END, LATEST_END), Err(OUTSIDE_PERIOD));
}

#[test]
fn withdrawn_anywhere_in_the_chain() {
    for withdrawn in 0..3 {
        let mut stored = three();
        stored[withdrawn].state = 2;
        for (number, signer) in stored.iter().enumerate() {
            let expected = if number < withdrawn {
                Ok(())
            } else {
                Err(WITHDRAWN)
            };
            assert_eq!(answer(&stored, signer), expected, "{withdrawn} {number}");
        }
    }
}

#[test]
fn a_missing_issuer() {
    let [root, authority, ticket] = three();
    assert_eq!(answer(&[], &ticket), Err(UNKNOWN));
    assert_eq!(answer(&[root, ticket.clone()], &ticket), Err(UNKNOWN));
    assert_eq!(answer(&[authority], &ticket), Err(UNKNOWN));
    // The issuer zero is no empty slot, but may be a filled one.
    let orphan = common::chains::authority(2, 0);
    assert_eq!(answer(&[], &orphan), Err(UNKNOWN));
    assert_eq!(answer(&[common::chains::root(0)], &orphan), Ok(()));
}

/// A chain of eight is walked to its end; of nine, its eighth from below is no root.
#[test]
fn eight_and_nine() {
    let stored = chain(9);
    for (number, signer) in stored.iter().enumerate() {
        let expected = if number < 8 {
            Ok(())
        } else {
            Err(CHAIN_TOO_LONG)
        };
        assert_eq!(answer(&stored, signer), expected, "{number}");
    }
    // The same with a ticket below that is not stored.
    assert_eq!(answer(&stored, &ticket(99, 7, 200, 300)), Ok(()));
    let ninth = ticket(99, 8, 200, 300);
    assert_eq!(answer(&stored, &ninth), Err(CHAIN_TOO_LONG));
}

/// A root is tested for 8 also as the eighth; another certificate there for 8 before 18.
#[test]
fn the_eighth_is_tested_itself() {
    let mut stored = chain(9);
    let [eighth, ninth] = [7, 8].map(|number| stored[number].clone());
    stored[0].state = 2;
    assert_eq!(answer(&stored, &eighth), Err(WITHDRAWN));
    assert_eq!(answer(&stored, &ninth), Err(CHAIN_TOO_LONG));
    stored[1].state = 2;
    assert_eq!(answer(&stored, &ninth), Err(WITHDRAWN));
}

#[test]
fn rings() {
    for length in 1..=12 {
        let mut stored = chain(length);
        stored[0] = authority(1, length);
        for signer in &stored {
            assert_eq!(answer(&stored, signer), Err(CHAIN_TOO_LONG), "{length}");
        }
        let below = ticket(99, 1, 200, 300);
        assert_eq!(answer(&stored, &below), Err(CHAIN_TOO_LONG), "{length}");
        stored[0].state = 2;
        let expected = if length <= 8 {
            WITHDRAWN
        } else {
            CHAIN_TOO_LONG
        };
        // Certificate 1 is the last of the ring that this walk meets.
        let lowest = &stored[length as usize - 1];
        assert_eq!(answer(&stored, lowest), Err(expected), "{length}");
    }
}

#[test]
fn a_ticket_issues_nothing() {
    let [root, authority, ticket] = three();
    let mut below = ticket.clone();
    (below.id, below.issuer) = (4, 3);
    assert_eq!(answer(&[root, authority, ticket], &below), Err(WRONG_KIND));
}

/// The tests between two certificates are made at every step, not the first alone.
#[test]
fn every_step_is_tested() {
    type Change = fn(&mut Fields);
    let changes: [(Change, u8); 5] = [
        (|fields| fields.permissions[0] = 37, NOT_PERMITTED),
        (|fields| fields.end = 899, OUTSIDE_PERIOD),
        (|fields| fields.start = 101, OUTSIDE_PERIOD),
        (
            |fields| (fields.rectangle_count, fields.rectangles[0]) = (1, [1, 0, 0, 1]),
            OUTSIDE_PLACE,
        ),
        (|fields| (fields.kind, fields.issuer) = (1, 7), WRONG_KIND),
    ];
    for (change, expected) in changes {
        for changed in 0..7 {
            let mut stored = chain(8);
            change(&mut stored[changed]);
            let below = stored[7].clone();
            assert_eq!(answer(&stored, &below), Err(expected), "{changed}");
        }
    }
}

const OUTSIDE: Result<(), u8> = Err(OUTSIDE_PLACE);

/// The walk from a root with this region, at this latitude and longitude.
fn at_place(region: &[[i32; 4]], latitude: i32, longitude: i32) -> Result<(), u8> {
    let mut signer = root(1);
    signer.rectangle_count = region.len() as u64;
    signer.rectangles[..region.len()].copy_from_slice(region);
    let signer = decode(&signer.slot());
    walk(&[], &signer, 250, Some((latitude, longitude)))
}

/// "Edges belong to it."
#[test]
fn edges_of_the_region() {
    // Latitudes -30 to 50, longitudes -70 to 20.
    let region = [[50, -70, -30, 20]];
    for (latitude, latitude_in) in [
        (-31, false),
        (-30, true),
        (0, true),
        (50, true),
        (51, false),
    ] {
        for (longitude, longitude_in) in [
            (-71, false),
            (-70, true),
            (0, true),
            (20, true),
            (21, false),
        ] {
            let expected = if latitude_in && longitude_in {
                Ok(())
            } else {
                OUTSIDE
            };
            let found = at_place(&region, latitude, longitude);
            assert_eq!(found, expected, "{latitude} {longitude}");
        }
    }
}

#[test]
fn any_rectangle_of_the_region() {
    let region = [[5, 0, 0, 5], [9, 8, 8, 9], [-1, -5, -5, -1], [1, 20, 0, 21]];
    for place in [(5, 5), (8, 9), (-5, -1), (0, 21)] {
        assert_eq!(at_place(&region, place.0, place.1), Ok(()), "{place:?}");
        assert_eq!(at_place(&[], place.0, place.1), Ok(()), "{place:?}");
    }
    // A latitude of one with a longitude of another.
    for place in [(5, 8), (9, 5), (-1, 0), (0, -1), (8, 20), (6, 6)] {
        assert_eq!(at_place(&region, place.0, place.1), OUTSIDE, "{place:?}");
    }
    // A fourth rectangle that is not used holds no place.
    assert_eq!(at_place(&region[..3], 0, 21), OUTSIDE);
    assert_eq!(at_place(&region[1..], 0, 0), OUTSIDE);
}

#[test]
fn places_at_the_ends_of_the_world() {
    let world = [[900_000_000, -1_800_000_000, -900_000_000, 1_800_000_000]];
    assert_eq!(at_place(&world, 900_000_000, 1_800_000_000), Ok(()));
    assert_eq!(at_place(&world, -900_000_000, -1_800_000_000), Ok(()));
    assert_eq!(at_place(&world, 900_000_001, 0), OUTSIDE);
    assert_eq!(at_place(&world, i32::MIN, i32::MAX), OUTSIDE);
    assert_eq!(at_place(&[], i32::MIN, i32::MAX), Ok(()));
}

/// Without a position no region is tested against one; a region not inside is found all the same.
#[test]
fn without_a_position() {
    let [mut root, mut authority, ticket] = three();
    for fields in [&mut root, &mut authority] {
        (fields.rectangle_count, fields.rectangles[0]) = (1, [9, 0, 0, 9]);
    }
    let mut bounded = ticket.clone();
    (bounded.rectangle_count, bounded.rectangles[0]) = (1, [5, 0, 0, 5]);
    let stored = [root, authority];
    assert_eq!(answer(&stored, &bounded), Ok(()));
    assert_eq!(answer(&stored, &ticket), OUTSIDE);
    let store = store_of(&stored);
    let at = |signer: &Fields, place| walk(&store, &decode(&signer.slot()), 250, Some(place));
    assert_eq!(at(&bounded, (5, 5)), Ok(()));
    assert_eq!(at(&bounded, (5, 6)), OUTSIDE);
    assert_eq!(at(&stored[1], (5, 6)), Ok(()));
    assert_eq!(at(&stored[1], (9, 10)), OUTSIDE);
}

/// Stores that break the rules, of whatever length, are walked to an answer too.
#[test]
fn damaged_stores() {
    let mut numbers = Numbers(0x0f1e_2d3c_4b5a_6978);
    let mut seen = [0; 19];
    for _ in 0..300 {
        let mut store = store_of(&chain(9));
        for _ in 0..numbers.below(40) {
            flip(&mut store, numbers.below(8 * 9 * 212) as usize);
            // State and kind, behind id and issuer.
            let slot = 8 * 212 * numbers.below(9);
            flip(&mut store, (slot + 128 + numbers.below(5)) as usize);
        }
        store.truncate(numbers.below(14_000) as usize);
        for slot in slots(&store) {
            let found = walk(&store, &decode(slot), 250, Some((1, -1)));
            seen[usize::from(found.err().unwrap_or(0))] += 1;
        }
    }
    let answers: Vec<usize> = (0..19).filter(|number| seen[*number] > 0).collect();
    assert_eq!(answers, [0, 7, 8, 10, 11, 12, 13, 18]);
}
