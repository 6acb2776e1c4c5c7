//! Chains by hand: eight certificates stand, the ninth does not.

use difftest::entry::{self, Slots, WITHDRAWN};
use difftest::plan::{ROOT, TICKET};
use difftest::slot::SLOTS;

use crate::stores::{chain, listed, plain, withdrawn};

const MOST: usize = 8;

/// Slots for the certificates of a chain, the root's first: ascending,
/// descending, and up and down with holes.
fn places(length: usize) -> [Vec<usize>; 3] {
    let jump = |i: usize| (31 + 29 * i) % SLOTS;
    [
        (0..length).collect(),
        (0..length).map(|i| SLOTS - 1 - i).collect(),
        (0..length).map(jump).collect(),
    ]
}

fn store(places: &[usize]) -> Slots {
    let entries = chain(places.len() as u8);
    entry::at(places.iter().copied().zip(entries))
}

/// The slots of the certificates from one depth to another, ascending.
fn slots_of(places: &[usize], depths: std::ops::Range<usize>) -> Vec<u8> {
    let depths = depths.start.min(depths.end)..depths.end;
    let mut slots: Vec<u8> = places[depths].iter().map(|&slot| slot as u8).collect();
    slots.sort_unstable();
    slots
}

/// Of a chain of any length, the first eight stand from the root on; asked for
/// one of them, those below it are listed and it among them.
#[test]
fn eight_stand_and_nine_do_not() {
    for length in 1..=12 {
        for places in places(length) {
            let slots = store(&places);
            for asked in 0..length {
                let expected = slots_of(&places, asked..length.min(MOST));
                let given = listed(&slots, asked as u8 + 1, 500);
                assert_eq!(given, Ok(expected), "{asked} of {length} at {places:?}");
            }
        }
    }
}

/// With one of them withdrawn, those above it stand and those below do not.
#[test]
fn a_withdrawn_link() {
    for length in [2, 5, 8, 9, 12] {
        for places in places(length) {
            for link in 0..length {
                let mut slots = store(&places);
                let left = withdrawn(&slots, link as u8 + 1);
                let gone = slots[places[link]].as_mut().expect("a filled slot");
                gone.state = WITHDRAWN;
                assert_eq!(left, Ok(entry::store(&slots)), "{link} of {length}");
                assert_eq!(withdrawn(&slots, link as u8 + 1), Err(8));
                for asked in 0..length {
                    let expected = match asked {
                        _ if asked == link => Err(8),
                        _ => Ok(slots_of(&places, asked..link.min(MOST))),
                    };
                    let given = listed(&slots, asked as u8 + 1, 500);
                    assert_eq!(given, expected, "{asked} below {link} of {length}");
                }
            }
        }
    }
}

/// A second chain that leaves the first one: what stands through the asked
/// certificate falls, on either branch, and its issuers do not.
#[test]
fn branches() {
    let mut entries = chain(6);
    entries.push(plain(TICKET, 7, 3, 100, 1_000));
    entries.push(plain(ROOT, 8, 0, 100, 1_000));
    entries.push(plain(TICKET, 9, 8, 100, 1_000));
    let slots = entry::at(entries.into_iter().enumerate());
    for (asked, expected) in [
        (1, vec![0, 1, 2, 3, 4, 5, 6]),
        (3, vec![2, 3, 4, 5, 6]),
        (4, vec![3, 4, 5]),
        (7, vec![6]),
        (8, vec![7, 8]),
    ] {
        assert_eq!(listed(&slots, asked, 500), Ok(expected), "{asked}");
    }
}

/// A full store in which all fall with the root: 64 slots.
#[test]
fn a_full_list() {
    let below = |id| plain(TICKET, id, 100, 100, 1_000);
    let root = plain(ROOT, 100, 0, 100, 1_000);
    let entries = (0..63).map(below).chain([root]);
    let slots = entry::at((0..SLOTS).rev().zip(entries));
    assert_eq!(listed(&slots, 100, 500), Ok((0..64).collect()));
    assert_eq!(listed(&slots, 62, 500), Ok(vec![1]));
}

/// The id zero is that of the empty slots, which are never found; a filled one
/// that has it is, by those below it too.
#[test]
fn id_zero() {
    let slots = entry::at([(5, plain(ROOT, 1, 0, 100, 1_000))]);
    assert_eq!(listed(&slots, 0, 500), Err(7));
    assert_eq!(withdrawn(&slots, 0), Err(7));
    let orphan = plain(TICKET, 2, 0, 100, 1_000);
    let slots = entry::at([(5, orphan.clone())]);
    assert_eq!(listed(&slots, 2, 500), Ok(vec![]));
    let root = plain(ROOT, 0, 0, 100, 1_000);
    let slots = entry::at([(5, orphan), (9, root)]);
    assert_eq!(listed(&slots, 2, 500), Ok(vec![5]));
    assert_eq!(listed(&slots, 0, 500), Ok(vec![5, 9]));
}
