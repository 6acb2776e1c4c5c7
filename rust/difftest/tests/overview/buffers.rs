//! What the library does with the caller's buffers.

use difftest::buffers::{FILLS, LONGER};
use difftest::by_hand::of_the_paper;
use difftest::entry;
use difftest::overview::layout;
use difftest::slot::SLOTS;
use nattveldi::raw::{self, LIST_LENGTH, STORED_LENGTH};

fn store() -> Vec<u8> {
    entry::store(&of_the_paper())
}

/// Stores and slots that are refused, and by which number.
fn refused() -> Vec<(u8, Vec<u8>, usize)> {
    let mut bad = store();
    bad[13_567] = 1;
    vec![
        (1, Vec::new(), 1),
        (1, store()[1..].to_vec(), 1),
        (1, [store(), vec![0]].concat(), 1),
        (1, store(), SLOTS),
        (1, store(), 256 + 1),
        (1, store(), usize::MAX),
        (1, bad.clone(), SLOTS),
        (2, bad.clone(), 1),
        (2, bad, 63),
        (7, store(), 6),
        (7, vec![0; 13_568], 0),
    ]
}

/// Exactly 244 octets are written, whatever they were before.
#[test]
fn stored_fills_the_buffers_front() {
    assert_eq!(STORED_LENGTH, 244);
    for (slot, entry) in of_the_paper().iter().flatten().enumerate() {
        for fill in FILLS {
            for length in LONGER.map(|more| STORED_LENGTH + more) {
                let mut buffer = vec![fill; length];
                assert_eq!(raw::stored(&store(), slot, &mut buffer), 0);
                let (written, behind) = buffer.split_at(244);
                assert_eq!(written, layout::octets(entry), "slot {slot}");
                assert!(behind.iter().all(|&octet| octet == fill), "{length}");
            }
        }
    }
}

/// A buffer that is too short is answered 1, whatever is asked, and stays.
#[test]
fn short_buffers() {
    let sound = (0, store(), 1);
    for (_, store, slot) in refused().into_iter().chain([sound]) {
        for length in 0..STORED_LENGTH {
            let mut buffer = vec![FILLS[0]; length];
            assert_eq!(raw::stored(&store, slot, &mut buffer), 1, "{length}");
            assert_eq!(buffer, vec![FILLS[0]; length]);
        }
    }
}

#[test]
fn refusals_leave_the_buffer() {
    for (number, store, slot) in refused() {
        for length in LONGER.map(|more| STORED_LENGTH + more) {
            let mut buffer = vec![FILLS[0]; length];
            assert_eq!(raw::stored(&store, slot, &mut buffer), number, "{slot}");
            assert_eq!(buffer, vec![FILLS[0]; length], "{number}");
        }
    }
}

/// The slots are written to the front and nothing behind them.
#[test]
fn standing_writes_its_front() {
    for fill in FILLS {
        for length in LONGER.map(|more| LIST_LENGTH + more) {
            let mut list = vec![fill; length];
            assert_eq!(raw::standing(&store(), 220, &mut list), 5);
            let mut expected = vec![fill; length];
            expected[..5].copy_from_slice(&[0, 1, 2, 4, 5]);
            assert_eq!(list, expected, "a list of {length}");
            let mut list = vec![fill; length];
            assert_eq!(raw::standing(&store(), 1_000, &mut list), 0);
            assert_eq!(list, vec![fill; length], "a list of {length}");
        }
    }
}

/// A list that is too short is answered -1, whatever the store, and stays.
#[test]
fn short_lists() {
    for (_, store, _) in refused() {
        for length in 0..LIST_LENGTH {
            let mut list = vec![FILLS[0]; length];
            assert_eq!(raw::standing(&store, 220, &mut list), -1, "{length}");
            assert_eq!(list, vec![FILLS[0]; length]);
        }
    }
}

#[test]
fn refusals_leave_the_list() {
    let mut bad = store();
    bad[13_567] = 1;
    for (answer, store) in [
        (-1, &[][..]),
        (-1, &store()[1..]),
        (-1, &[store(), vec![0]].concat()),
        (-1, &bad[1..]),
        (-2, &bad),
        (-2, &[0xff; 13_568]),
    ] {
        for length in LONGER.map(|more| LIST_LENGTH + more) {
            let mut list = vec![FILLS[0]; length];
            assert_eq!(raw::standing(store, 220, &mut list), answer);
            assert_eq!(list, vec![FILLS[0]; length], "{answer}");
        }
    }
}
