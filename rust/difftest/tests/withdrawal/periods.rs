//! Seconds at the ends of periods: the first is in, the end is out.

use difftest::entry::{self, Slots};
use difftest::plan::{AUTHORITY, LATEST_END, ROOT, TICKET};

use crate::stores::{listed, plain};

fn lists(slots: &Slots, second: u32) -> [Vec<u8>; 3] {
    [1, 2, 3].map(|id| listed(slots, id, second).expect("held certificates"))
}

/// A root from 100 to 1,000, an authority from 100 to 900, a ticket from 200 to
/// 300: what falls with each of them.
#[test]
fn ends_of_periods() {
    let entries = [
        plain(ROOT, 1, 0, 100, 1_000),
        plain(AUTHORITY, 2, 1, 100, 900),
        plain(TICKET, 3, 2, 200, 300),
    ];
    let slots = entry::at(entries.into_iter().enumerate());
    let none = [vec![], vec![], vec![]];
    let root = [vec![0], vec![], vec![]];
    let two = [vec![0, 1], vec![1], vec![]];
    let all = [vec![0, 1, 2], vec![1, 2], vec![2]];
    for (second, expected) in [
        (0, &none),
        (99, &none),
        (100, &two),
        (199, &two),
        (200, &all),
        (299, &all),
        (300, &two),
        (899, &two),
        (900, &root),
        (999, &root),
        (1_000, &none),
        (u32::MAX, &none),
    ] {
        assert_eq!(&lists(&slots, second), expected, "second {second}");
    }
}

/// An end has 38 bits, a second 32: no second is cut and none wraps.
#[test]
fn far_periods() {
    const LAST: u32 = u32::MAX;
    let behind = u64::from(LAST) + 1;
    for (start, end, second, stands) in [
        (0, LATEST_END, LAST, true),
        (0, LATEST_END, 0, true),
        (LAST, behind, LAST, true),
        (LAST, behind, LAST - 1, false),
        (0, behind, LAST, true),
        (0, behind - 1, LAST, false),
        (0, behind - 1, LAST - 1, true),
        (0, behind + 5, 5, true),
        (6, behind + 5, 5, false),
        (1 << 31, behind, 1 << 31, true),
        (1 << 31, behind, (1 << 31) - 1, false),
    ] {
        let slots = entry::at([(7, plain(ROOT, 1, 0, start, end))]);
        let expected = if stands { vec![7] } else { vec![] };
        let told = format!("{start} to {end} at {second}");
        assert_eq!(listed(&slots, 1, second), Ok(expected), "{told}");
    }
}
