//! Chains by hand: which certificates stand at a second.

use difftest::by_hand::{chain, of_the_paper, plain};
use difftest::entry::{self, Entry, Slots, WITHDRAWN};
use difftest::plan::{AUTHORITY, LATEST_END, ROOT, TICKET};
use difftest::slot::SLOTS;

use crate::asking::standing;

fn in_order(entries: Vec<Entry>) -> Slots {
    entry::at(entries.into_iter().enumerate())
}

/// Paper 01, "The page program": the root from 100 to 1,000, the authorities
/// from 100 to 900, the tickets from 200 to 300, 250 to 400 and 200 to 300.
#[test]
fn store_of_the_paper() {
    for (second, expected) in [
        (0, &[][..]),
        (99, &[]),
        (100, &[0, 1, 4]),
        (199, &[0, 1, 4]),
        (200, &[0, 1, 2, 4, 5]),
        (220, &[0, 1, 2, 4, 5]),
        (250, &[0, 1, 2, 3, 4, 5]),
        (299, &[0, 1, 2, 3, 4, 5]),
        (300, &[0, 1, 3, 4]),
        (400, &[0, 1, 4]),
        (899, &[0, 1, 4]),
        (900, &[0]),
        (999, &[0]),
        (1_000, &[]),
        (u32::MAX, &[]),
    ] {
        assert_eq!(standing(&of_the_paper(), second), expected, "{second}");
    }
}

#[test]
fn one_of_the_paper_withdrawn() {
    for (withdrawn, expected) in [
        (0, &[][..]),
        (1, &[0, 4, 5]),
        (2, &[0, 1, 3, 4, 5]),
        (4, &[0, 1, 2, 3]),
        (5, &[0, 1, 2, 3, 4]),
    ] {
        let mut slots = of_the_paper();
        slots[withdrawn].as_mut().expect("a filled slot").state = WITHDRAWN;
        assert_eq!(standing(&slots, 260), expected, "{withdrawn}");
    }
}

/// Of a chain of any length the first eight stand, wherever they are.
#[test]
fn eight_stand_and_nine_do_not() {
    for length in 1..=12 {
        let standing_count = length.min(8);
        let ascending = in_order(chain(length));
        let expected: Vec<u8> = (0..standing_count).collect();
        assert_eq!(standing(&ascending, 500), expected, "{length}");
        let descending = entry::at((0..SLOTS).rev().zip(chain(length)));
        let expected: Vec<u8> = (64 - standing_count..64).collect();
        assert_eq!(standing(&descending, 500), expected, "{length}");
    }
}

/// Each of these stands below nothing, or below what does not stand.
#[test]
fn rings_and_orphans() {
    let slots = in_order(vec![
        plain(AUTHORITY, 1, 2, 100, 1_000),
        plain(AUTHORITY, 2, 1, 100, 1_000),
        plain(AUTHORITY, 3, 3, 100, 1_000),
        plain(TICKET, 4, 1, 100, 1_000),
        plain(TICKET, 5, 99, 100, 1_000),
        plain(TICKET, 6, 0, 100, 1_000), // the id of the empty slots
        plain(ROOT, 7, 0, 100, 1_000),
        plain(TICKET, 8, 7, 100, 1_000),
        plain(TICKET, 9, 8, 100, 1_000), // below a ticket
    ]);
    assert_eq!(standing(&slots, 500), [6, 7]);
}

/// An end has 38 bits, a second 32: no second is cut and none wraps.
#[test]
fn far_periods() {
    const LAST: u32 = u32::MAX;
    let behind = u64::from(LAST) + 1;
    for (start, end, second, stands) in [
        (0, LATEST_END, LAST, true),
        (LAST, behind, LAST, true),
        (LAST, behind, LAST - 1, false),
        (0, behind - 1, LAST, false),
        (0, behind + 5, 5, true),
        (6, behind + 5, 5, false),
    ] {
        let slots = entry::at([(63, plain(ROOT, 1, 0, start, end))]);
        let expected = if stands { vec![63] } else { vec![] };
        assert_eq!(standing(&slots, second), expected, "{start} to {end}");
    }
}

/// None in an empty store, all in a full one, and slots with holes between.
#[test]
fn none_all_and_holes() {
    assert_eq!(standing(&entry::at([]), 500), []);
    let root = plain(ROOT, 100, 0, 100, 1_000);
    let below = (0..63).map(|id| plain(TICKET, id, 100, 200, 300));
    let full = entry::at((0..SLOTS).rev().zip(std::iter::once(root).chain(below)));
    assert_eq!(standing(&full, 299), (0..64).collect::<Vec<u8>>());
    assert_eq!(standing(&full, 300), [63]);
    let mut holes = full;
    for slot in (0..SLOTS).filter(|slot| slot % 9 != 0) {
        holes[slot] = None;
    }
    assert_eq!(standing(&holes, 299), [0, 9, 18, 27, 36, 45, 54, 63]);
}
