//! What the library does with the caller's buffers.

use difftest::buffers::{FILLS, LONGER};
use difftest::entry::{self, WITHDRAWN};
use difftest::slot::{SLOTS, SLOT_LENGTH, STORE_LENGTH};
use nattveldi::raw::{self, PAGE_LENGTH};

use crate::stores::of_the_paper;

fn store() -> Vec<u8> {
    entry::store(&of_the_paper())
}

/// Stores and ids that are refused, and by which number.
fn refused() -> Vec<(u8, Vec<u8>, Vec<u8>)> {
    let mut bad = store();
    bad[STORE_LENGTH - 1] = 1;
    let mut slots = of_the_paper();
    slots[1].as_mut().expect("a filled slot").state = WITHDRAWN;
    let id = vec![2; 8];
    vec![
        (1, Vec::new(), id.clone()),
        (1, store()[1..].to_vec(), id.clone()),
        (1, [store(), vec![0]].concat(), id.clone()),
        (1, store(), Vec::new()),
        (1, store(), vec![2; 7]),
        (1, store(), vec![2; 9]),
        (1, bad.clone(), vec![2; 7]),
        (2, bad.clone(), id.clone()),
        (2, bad, vec![7; 8]),
        (7, store(), vec![7; 8]),
        (7, store(), vec![0; 8]),
        (8, entry::store(&slots), id),
    ]
}

/// The slots are written to the front and nothing behind them.
#[test]
fn list_writes_its_front() {
    for fill in FILLS {
        for length in LONGER.map(|more| SLOTS + more) {
            let mut list = vec![fill; length];
            assert_eq!(raw::list(&store(), &[2; 8], 220, &mut list), 2);
            let mut expected = vec![fill; length];
            expected[..2].copy_from_slice(&[1, 2]);
            assert_eq!(list, expected, "a list of {length}");
            let mut list = vec![fill; length];
            assert_eq!(raw::list(&store(), &[3; 8], 300, &mut list), 0);
            assert_eq!(list, vec![fill; length], "a list of {length}");
        }
    }
}

/// A list that is too short is answered -1, whatever the store, and stays.
#[test]
fn short_lists() {
    let sound = (0, store(), vec![2; 8]);
    for (_, store, id) in refused().into_iter().chain([sound]) {
        for length in 0..SLOTS {
            let mut list = vec![FILLS[0]; length];
            assert_eq!(raw::list(&store, &id, 220, &mut list), -1);
            assert_eq!(list, vec![FILLS[0]; length]);
        }
    }
}

#[test]
fn refusals_leave_the_list() {
    for (number, store, id) in refused() {
        for length in LONGER.map(|more| SLOTS + more) {
            let mut list = vec![FILLS[0]; length];
            let answer = raw::list(&store, &id, 220, &mut list);
            assert_eq!(answer, -i32::from(number), "{id:?}");
            assert_eq!(list, vec![FILLS[0]; length], "{number}");
        }
    }
}

#[test]
fn refusals_leave_the_store() {
    for (number, store, id) in refused() {
        let mut given = store.clone();
        assert_eq!(raw::withdraw(&mut given, &id), number, "{id:?}");
        assert!(given == store, "{number}, {id:?}");
    }
}

/// What stands before the store and behind it in memory stays.
#[test]
fn withdraw_changes_two_bits() {
    const AROUND: usize = 300;
    for (slot, id) in (0..6).zip(1..) {
        let mut memory = vec![FILLS[0]; STORE_LENGTH + 2 * AROUND];
        memory[AROUND..][..STORE_LENGTH].copy_from_slice(&store());
        let mut expected = memory.clone();
        expected[AROUND + slot * SLOT_LENGTH + 16] ^= 0xc0;
        let store = &mut memory[AROUND..][..STORE_LENGTH];
        assert_eq!(raw::withdraw(store, &[id; 8]), 0, "slot {slot}");
        assert!(memory == expected, "slot {slot}");
    }
}

/// A text is written to the front and nothing behind it; a buffer that is too
/// short for the longest text stays, and the answer is 0.
#[test]
fn page_writes_its_front() {
    let whole = [&store()[..], &[2; 8], &220_u32.to_be_bytes()].concat();
    for input in [&whole[..], &[], &whole[1..]] {
        let text = reference::page(input);
        for fill in FILLS {
            for length in LONGER.map(|more| PAGE_LENGTH + more) {
                let mut buffer = vec![fill; length];
                assert_eq!(raw::page(input, &mut buffer) as usize, text.len());
                let (front, behind) = buffer.split_at(text.len());
                assert_eq!(front, text);
                assert!(behind.iter().all(|&octet| octet == fill), "{length}");
            }
        }
        for length in [0, 1, text.len(), 6_121, PAGE_LENGTH - 1] {
            let mut buffer = vec![FILLS[0]; length];
            assert_eq!(raw::page(input, &mut buffer), 0, "a buffer of {length}");
            assert_eq!(buffer, vec![FILLS[0]; length]);
        }
    }
}
