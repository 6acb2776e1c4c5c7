//! Which stored certificates stand (document 01, "How a chain is walked"; open point 24).

mod common;

use common::chains::*;
use common::stores::*;
use reference::{stands, store_is_valid, SLOTS};

/// The slots that stand at a second, by one and in the list, whose other octets stay.
fn standing(store: &[u8], second: u32) -> Vec<usize> {
    assert!(store_is_valid(store));
    let stand = (0..SLOTS).filter(|slot| stands(store, *slot, second));
    let stand: Vec<usize> = stand.collect();
    for fill in [0xaa, 0x00] {
        let mut list = [fill; SLOTS + 3];
        let n = reference::standing(store, second, &mut list).unwrap();
        let (front, behind) = list.split_at(n);
        let front: Vec<usize> = front.iter().map(|slot| usize::from(*slot)).collect();
        assert_eq!(front, stand, "{second}");
        assert!(behind.iter().all(|octet| *octet == fill), "{second}");
    }
    stand
}

/// Root 100 to 1,000; authorities 100 to 900; tickets 200 to 300, 250 to 400 and 200 to 300.
#[test]
fn the_example_second_by_second() {
    let store = store_of(&example());
    for (second, expected) in [
        (0, &[][..]),
        (99, &[]),
        (100, &[0, 1, 4]),
        (199, &[0, 1, 4]),
        (200, &[0, 1, 2, 4, 5]),
        (220, &[0, 1, 2, 4, 5]),
        (249, &[0, 1, 2, 4, 5]),
        (250, &[0, 1, 2, 3, 4, 5]),
        (299, &[0, 1, 2, 3, 4, 5]),
        (300, &[0, 1, 3, 4]),
        (399, &[0, 1, 3, 4]),
        (400, &[0, 1, 4]),
        (899, &[0, 1, 4]),
        (900, &[0]),
        (999, &[0]),
        (1_000, &[]),
        (u32::MAX, &[]),
    ] {
        assert_eq!(standing(&store, second), expected, "{second}");
    }
}

#[test]
fn an_empty_slot_does_not_stand() {
    assert_eq!(standing(&empty_store(), 0), []);
    // An issuer of id zero does not make the empty slots stand.
    let mut zero = root(0);
    zero.start = 0;
    assert_eq!(standing(&store_of(&[zero]), 0), [0]);
    // Whatever a bad store has behind the state.
    let mut emptied = root(1);
    emptied.state = 0;
    assert!(!stands(&store_of(&[emptied]), 0, 220));
    assert!(!stands(&store_of(&example()), SLOTS, 220));
    assert!(!stands(&store_of(&example()), usize::MAX, 220));
    assert!(!stands(&[], 0, 220));
}

#[test]
fn the_last_second() {
    let mut slots = [root(1), ticket(2, 1, 200, LATEST_END)];
    slots[0].end = LATEST_END;
    assert_eq!(standing(&store_of(&slots), u32::MAX), [0, 1]);
    for fields in &mut slots {
        fields.end = u64::from(u32::MAX);
    }
    assert_eq!(standing(&store_of(&slots), u32::MAX - 1), [0, 1]);
    assert_eq!(standing(&store_of(&slots), u32::MAX), []);
}

/// "Certificates deeper than eight may be admitted and don't stand."
#[test]
fn eight_stand_and_nine_do_not() {
    let mut slots = chain(12);
    assert_eq!(standing(&store_of(&slots), 220), [0, 1, 2, 3, 4, 5, 6, 7]);
    slots.reverse();
    assert_eq!(standing(&store_of(&slots), 220), [4, 5, 6, 7, 8, 9, 10, 11]);
}

#[test]
fn withdrawn_and_all_that_stand_through_it() {
    let mut slots = example();
    slots[1].state = 2;
    assert_eq!(standing(&store_of(&slots), 260), [0, 4, 5]);
    slots[5].state = 2;
    assert_eq!(standing(&store_of(&slots), 260), [0, 4]);
    slots[0].state = 2;
    assert_eq!(standing(&store_of(&slots), 260), []);
}

#[test]
fn rings_and_orphans_do_not_stand() {
    let mut slots = chain(4);
    slots[0] = authority(1, 4);
    slots.push(authority(5, 77));
    slots.push(authority(6, 6));
    assert_eq!(standing(&store_of(&slots), 220), []);
}

/// Of the tests about places, "region not inside" stays.
#[test]
fn an_everywhere_ticket_under_a_bounded_authority() {
    let mut slots = example();
    (slots[1].rectangle_count, slots[1].rectangles[0]) = (1, [1, 0, 0, 1]);
    assert_eq!(standing(&store_of(&slots), 260), [0, 1, 4, 5]);
    for ticket in &mut slots[2..4] {
        (ticket.rectangle_count, ticket.rectangles[0]) = (1, [1, 0, 0, 1]);
    }
    assert_eq!(standing(&store_of(&slots), 260), [0, 1, 2, 3, 4, 5]);
    slots[3].rectangles[0] = [2, 0, 0, 1];
    assert_eq!(standing(&store_of(&slots), 260), [0, 1, 2, 4, 5]);
}

/// Slots in between and behind are empty.
#[test]
fn holes() {
    let mut store = empty_store();
    for (slot, fields) in [63, 40, 1, 0, 20, 62].into_iter().zip(example()) {
        set_slot(&mut store, slot, &fields.slot());
    }
    assert_eq!(standing(&store, 220), [1, 20, 40, 62, 63]);
    assert_eq!(standing(&store, 250), [0, 1, 20, 40, 62, 63]);
    assert_eq!(standing(&store, 300), [0, 20, 40, 63]);
    // Without the root nothing stands.
    set_slot(&mut store, 63, &[0; 212]);
    assert_eq!(standing(&store, 220), []);
}

#[test]
fn all_64_in_a_list_of_64() {
    let mut slots: Vec<Fields> = (2..65).map(|id| ticket(id, 1, 200, 300)).collect();
    slots.push(root(1));
    let all: Vec<usize> = (0..64).collect();
    assert_eq!(standing(&store_of(&slots), 299), all);
    assert_eq!(standing(&store_of(&slots), 300), [63]);
    let mut list = [0xff; 64];
    let n = reference::standing(&store_of(&slots), 299, &mut list);
    assert_eq!((n, list), (Ok(64), std::array::from_fn(|slot| slot as u8)));
}

/// "1, 2", and the list stays.
#[test]
fn order_of_refusals() {
    let good = store_of(&example());
    let mut bad = good.clone();
    flip(&mut bad, 8 * 212 * 64 - 1);
    let longer = [&bad[..], &[0]].concat();
    for (store, list_length, expected) in [
        (&good[..], 63, Err(1)),
        (&good[..], 0, Err(1)),
        (&good[..], 64, Ok(5)),
        (&good[..], 1_000, Ok(5)),
        (&good[1..], 64, Err(1)),
        (&longer[..], 64, Err(1)),
        (&[][..], 64, Err(1)),
        (&bad[..], 63, Err(1)),
        (&bad[1..], 64, Err(1)),
        (&bad[..], 64, Err(2)),
        (&bad[..], 65, Err(2)),
    ] {
        let mut list = vec![0xaa; list_length];
        let found = reference::standing(store, 220, &mut list);
        assert_eq!(found, expected, "{}, {list_length}", store.len());
        let written = list.iter().filter(|octet| **octet != 0xaa).count();
        assert_eq!(written, expected.unwrap_or(0));
    }
}
