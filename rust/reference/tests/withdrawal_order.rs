//! Every set of faults of list and withdraw at once: the first in the paper's order is the answer,
//! and neither store nor list changes (document 01, "Order of checks").

mod common;

use common::chains::*;
use common::stores::*;
use reference::{list, page, withdraw};

/// "1 (store length, id not 8 octets, list under 64 octets), 2, 7, 8"
const FAULTS: [u8; 6] = [1, 1, 1, 2, 7, 8];
const STORE_LENGTH: usize = 0;
const ID_LENGTH: usize = 1;
const LIST_LENGTH: usize = 2;
const BAD_STORE: usize = 3;
const UNKNOWN: usize = 4;
const WITHDRAWN: usize = 5;

/// The example's store, with faults.
fn store(has: impl Fn(usize) -> bool) -> Vec<u8> {
    let mut slots = example();
    if has(WITHDRAWN) {
        slots[1].state = 2;
    }
    let mut store = store_of(&slots);
    if has(BAD_STORE) {
        flip(&mut store, 8 * 212 * 64 - 1);
    }
    if has(STORE_LENGTH) {
        store.pop();
    }
    store
}

/// The id 02.., or one octet more of it, or 09.. which is not stored.
fn id(has: impl Fn(usize) -> bool) -> Vec<u8> {
    let octet = if has(UNKNOWN) { 9 } else { 2 };
    vec![octet; if has(ID_LENGTH) { 9 } else { 8 }]
}

#[test]
fn every_set_of_faults() {
    let mut refused = 0;
    for set in 0..1 << FAULTS.len() {
        let has = |fault: usize| set >> fault & 1 == 1;
        let first = |faults: &[usize]| {
            let first = faults.iter().find(|fault| has(**fault));
            first.map_or(0, |fault| FAULTS[*fault])
        };
        let (before, id) = (store(has), id(has));

        let expected = first(&[0, 1, 2, 3, 4, 5]);
        let mut octets = vec![0xaa; if has(LIST_LENGTH) { 63 } else { 64 }];
        let found = list(&before, &id, 220, &mut octets);
        if expected == 0 {
            assert_eq!((found, &octets[..3]), (Ok(2), &[1, 2, 0xaa][..]));
        } else {
            assert_eq!(found, Err(expected), "{set:06b}");
            assert!(octets.iter().all(|octet| *octet == 0xaa), "{set:06b}");
            refused += 1;
        }

        let expected = first(&[STORE_LENGTH, ID_LENGTH, BAD_STORE, UNKNOWN, WITHDRAWN]);
        let mut after = before.clone();
        let found = withdraw(&mut after, &id);
        assert_eq!(found.err().unwrap_or(0), expected, "{set:06b}");
        assert_eq!(after == before, expected != 0, "{set:06b}");

        // One octet too few and one too many would make up for each other.
        if !has(STORE_LENGTH) && !has(ID_LENGTH) && expected != 0 {
            let input = [&before[..], &id, &[0, 0, 0, 220]].concat();
            assert_eq!(page(&input), format!("refused {expected}\n").as_bytes());
        }
    }
    assert_eq!(refused, 63);
}

/// Stores of any length and any octets.
#[test]
fn any_octets() {
    let mut numbers = Numbers(0x5a5a_1234_8765_0ff1);
    for length in [0, 1, 212, 13_356, 13_567, 13_568, 13_569, 13_780] {
        for octet in [0x00, 0xff, numbers.next() as u8] {
            let mut store = vec![octet; length];
            let right_length = length == 13_568;
            let expected = match octet {
                _ if !right_length => Err(1),
                0 => Err(7),
                _ => Err(2),
            };
            assert_eq!(withdraw(&mut store, &[octet; 8]), expected);
            let found = list(&store, &[octet; 8], 220, &mut [0; 64]);
            assert_eq!(found.map(|_| ()), expected);
        }
    }
}
