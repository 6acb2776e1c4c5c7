//! The withdrawal page's list, and the withdrawal (document 01, "Order of checks").

mod common;

use common::chains::*;
use common::stores::*;
use reference::constants::{BAD_CALL, UNKNOWN, WITHDRAWN};
use reference::{list, withdraw};

/// The listed slots; asserts that the octets behind them stay.
fn listed(store: &[u8], id: u64, second: u32) -> Vec<u8> {
    for fill in [0xaa, 0x00] {
        let mut octets = vec![fill; 70];
        let n = list(store, &id.to_be_bytes(), second, &mut octets).unwrap();
        assert!(octets[n..].iter().all(|octet| *octet == fill));
        octets.truncate(n);
        if fill == 0 {
            return octets;
        }
    }
    unreachable!()
}

/// Document 01, "The page program": "Id 02.., second 220", and the same store at other seconds.
#[test]
fn the_example() {
    let store = store_of(&example());
    let at = |octet, second| listed(&store, eight_times(octet), second);
    assert_eq!(at(2, 220), [1, 2]);
    assert_eq!(at(2, 199), [1]);
    assert_eq!(at(2, 250), [1, 2, 3]);
    assert_eq!(at(2, 299), [1, 2, 3]);
    assert_eq!(at(2, 300), [1, 3]);
    assert_eq!(at(2, 400), [1]);
    // It does not stand, so n is 0.
    assert_eq!(at(2, 99), []);
    assert_eq!(at(2, 900), []);
    assert_eq!(at(3, 220), [2]);
    assert_eq!(at(4, 220), []);
    assert_eq!(at(5, 220), [4, 5]);
    // Not direct children only.
    assert_eq!(at(1, 220), [0, 1, 2, 4, 5]);
    assert_eq!(at(1, 950), [0]);
}

/// Slot numbers ascend, wherever the asked certificate is.
#[test]
fn a_ticket_below_its_authority() {
    let mut slots = example();
    slots.reverse();
    assert_eq!(listed(&store_of(&slots), eight_times(2), 260), [2, 3, 4]);
    assert_eq!(
        listed(&store_of(&slots), eight_times(1), 260),
        [0, 1, 2, 3, 4, 5]
    );
}

#[test]
fn all_64_in_a_list_of_64() {
    let mut slots: Vec<Fields> = (2..65).map(|id| ticket(id, 1, 200, 300)).collect();
    slots.push(root(1));
    let store = store_of(&slots);
    let mut octets = [0xff; 64];
    let all: [u8; 64] = std::array::from_fn(|slot| slot as u8);
    let n = list(&store, &1u64.to_be_bytes(), 220, &mut octets);
    assert_eq!((n, octets), (Ok(64), all));
    assert_eq!(listed(&store, 40, 220), [38]);
}

/// What hangs on a withdrawn certificate does not stand before, so it is not on the list.
#[test]
fn what_does_not_stand_before_is_not_listed() {
    let mut slots = example();
    slots[1].state = 2;
    assert_eq!(listed(&store_of(&slots), eight_times(1), 260), [0, 4, 5]);
    assert_eq!(listed(&store_of(&slots), eight_times(3), 260), []);
    // Deeper than eight, and a ring.
    let deep = chain(12);
    assert_eq!(listed(&store_of(&deep), 1, 220), [0, 1, 2, 3, 4, 5, 6, 7]);
    assert_eq!(listed(&store_of(&deep), 6, 220), [5, 6, 7]);
    assert_eq!(listed(&store_of(&deep), 9, 220), []);
    let ring = [authority(1, 2), authority(2, 1)];
    assert_eq!(listed(&store_of(&ring), 1, 220), []);
}

/// Of the store, the two bits of one state change.
#[test]
fn withdraw_changes_one_state() {
    for asked in 0..6 {
        let mut slots = example();
        let id = slots[asked].id.to_be_bytes();
        let mut store = store_of(&slots);
        assert_eq!(withdraw(&mut store, &id), Ok(()));
        slots[asked].state = 2;
        assert!(store == store_of(&slots), "{asked}");
        // Again, it is withdrawn.
        assert_eq!(withdraw(&mut store, &id), Err(WITHDRAWN));
        assert_eq!(list(&store, &id, 220, &mut [0; 64]), Err(WITHDRAWN));
        assert!(store == store_of(&slots), "{asked}");
    }
}

/// The slot's other bits may be anything a store allows, in any slot.
#[test]
fn withdraw_in_every_slot() {
    let slots: Vec<Fields> = (0..64)
        .map(|n| Fields::with_counts(n as u64, n % 33, n % 5, n % 17))
        .collect();
    for asked in 0..64 {
        let mut store = store_of(&slots);
        let mut expected = slots.clone();
        expected[asked].state = 2;
        let id = slots[asked].id.to_be_bytes();
        assert_eq!(withdraw(&mut store, &id), Ok(()));
        assert!(store == store_of(&expected), "{asked}");
    }
}

/// "Withdrawing by slot" is an error that looks right: ids decide, whole ones.
#[test]
fn ids_are_compared_whole() {
    let store = store_of(&[root(1)]);
    for bit in 0..64 {
        let id = (1u64 ^ 1 << bit).to_be_bytes();
        assert_eq!(withdraw(&mut store.clone(), &id), Err(UNKNOWN));
    }
    // The id zero is no empty slot, but may be a filled one.
    let zero = [0; 8];
    assert_eq!(list(&store, &zero, 220, &mut [0; 64]), Err(UNKNOWN));
    let mut store = store_of(&[root(1), root(0)]);
    assert_eq!(listed(&store, 0, 220), [1]);
    assert_eq!(withdraw(&mut store, &zero), Ok(()));
    let withdrawn = Fields {
        state: 2,
        ..root(0)
    };
    assert!(store == store_of(&[root(1), withdrawn]));
}

#[test]
fn lengths_of_id_and_list() {
    let mut store = store_of(&example());
    for length in 0..20 {
        let id = vec![2; length];
        let expected = if length == 8 { Ok(2) } else { Err(BAD_CALL) };
        assert_eq!(list(&store, &id, 220, &mut [0; 64]), expected, "{length}");
        if length != 8 {
            assert_eq!(withdraw(&mut store, &id), Err(BAD_CALL), "{length}");
        }
    }
    for length in [0, 1, 2, 32, 63, 64, 65, 255, 1_000] {
        let expected = if length < 64 { Err(BAD_CALL) } else { Ok(2) };
        let found = list(&store, &[2; 8], 220, &mut vec![0; length]);
        assert_eq!(found, expected, "{length}");
    }
}
