//! The rules of a slot's rectangles, for [`crate::rules`].

use difftest::entry::Entry;
use difftest::plan::Rectangle;
use difftest::slot;

use crate::rules::{with, Case};
use crate::stores::{large, small};

fn entry(count: usize) -> Entry {
    Entry {
        rectangles: large().rectangles[..count].to_vec(),
        ..small()
    }
}

/// So many rectangles, under a count: one that is zero has equal edges, and
/// one beyond the count stands in unused room.
pub fn counts() -> Vec<Case> {
    let case = |held, count| {
        let slot = with(&entry(held), &[(slot::RECTANGLE_COUNT, count as u64)]);
        (
            format!("{held} rectangles, count {count}"),
            slot,
            held == count,
        )
    };
    (0..=4)
        .flat_map(|held| (0..8).map(move |count| (held, count)))
        .map(|(held, count)| case(held, count))
        .collect()
}

/// Each edge of each rectangle that is not used.
pub fn unused() -> Vec<Case> {
    let mut cases = Vec::new();
    for held in 0..=4 {
        cases.push((format!("{held} rectangles"), entry(held).image(), true));
        for edge in 4 * held..16 {
            for value in [1, 1 << 31] {
                let slot = with(&entry(held), &[(slot::EDGES.nth(edge), value)]);
                let what = format!("{held} rectangles, edge {edge} is {value}");
                cases.push((what, slot, false));
            }
        }
    }
    cases
}

const N: i32 = 900_000_000;
const E: i32 = 1_800_000_000;

/// North, west, south, east, and whether that is a rectangle.
const EDGES: [(Rectangle, bool); 38] = [
    ([N, -E, -N, E], true), // the whole world
    ([N + 1, -E, -N, E], false),
    ([N, -E - 1, -N, E], false),
    ([N, -E, -N - 1, E], false),
    ([N, -E, -N, E + 1], false),
    ([N, 0, N - 1, 1], true), // small ones in its corners
    ([N + 1, 0, N, 1], false),
    ([N + 2, 0, N + 1, 1], false),
    ([1 - N, 0, -N, 1], true),
    ([-N, 0, -N - 1, 1], false),
    ([-N - 1, 0, -N - 2, 1], false),
    ([1, E - 1, 0, E], true),
    ([1, E, 0, E + 1], false),
    ([1, E + 1, 0, E + 2], false),
    ([1, -E, 0, 1 - E], true),
    ([1, -E - 1, 0, -E], false),
    ([1, -E - 2, 0, -E - 1], false),
    ([i32::MAX, 0, 0, 1], false),
    ([1, 0, i32::MIN, 1], false),
    ([1, i32::MIN, 0, 1], false),
    ([1, 0, 0, i32::MAX], false),
    ([N, -E, N, E], false), // equal edges, and one more or less
    ([5, 0, 5, 1], false),
    ([5, 0, 4, 1], true),
    ([4, 0, 5, 1], false),
    ([1, 7, 0, 7], false),
    ([1, 7, 0, 8], true),
    ([1, 8, 0, 7], false),
    ([0, 0, -1, 1], true), // across zero
    ([-1, 0, 0, 1], false),
    ([1, -1, 0, 0], true),
    ([1, 0, 0, -1], false),
    ([1, 1, -1, -1], false),
    ([-5, 0, -6, 1], true),
    ([-6, 0, -5, 1], false),
    ([1, -8, 0, -7], true),
    ([1, -7, 0, -8], false),
    ([0, 0, 0, 0], false),
];

/// Edges of one rectangle of four, and of as many as it needs.
pub fn edges(which: usize) -> Vec<Case> {
    let mut cases = Vec::new();
    for count in [which + 1, 4] {
        for (edges, valid) in EDGES {
            let mut entry = entry(count);
            entry.rectangles[which] = edges;
            cases.push((format!("{edges:?} of {count}"), entry.image(), valid));
        }
    }
    cases
}
