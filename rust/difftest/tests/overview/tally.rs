//! What came up in random overviews.

use std::collections::BTreeSet;

use difftest::counts::Counts;
use difftest::entry::{Entry, Slots, WITHDRAWN};
use difftest::lists::Listed;
use difftest::overview::generate::{Made, BREAKS};
use difftest::overview::layout;
use difftest::overview::lookups::Found;
use difftest::plan::{AUTHORITY, ROOT};
use difftest::slot::SLOTS;
use difftest::standing;

/// What must come up in 20,000 stores, and how often at least: about half of
/// what is usual, so that chance does not decide.
const FLOORS: [(&str, u64); 56] = [
    ("stored 1", 1_400),
    ("stored 2", 1_200),
    ("stored 7", 1_400),
    ("stored 0, in a damaged store", 100),
    ("stored 0, a held root", 1_100),
    ("stored 0, a held authority", 3_300),
    ("stored 0, a held ticket", 700),
    ("stored 0, a withdrawn root", 180),
    ("stored 0, a withdrawn authority", 120),
    ("stored 0, a withdrawn ticket", 220),
    ("stored 0, 0 rectangles", 1_400),
    ("stored 0, 1 rectangles", 1_200),
    ("stored 0, 2 rectangles", 1_000),
    ("stored 0, 3 rectangles", 1_000),
    ("stored 0, 4 rectangles", 1_000),
    ("stored 0, name of 0", 850),
    ("stored 0, name of 32", 850),
    ("stored 0, permissions of 0", 1_300),
    ("stored 0, permissions of 16", 600),
    ("a buffer of more than 244 octets, accepted", 130),
    ("refused, a slot up to 63", 3_300),
    ("refused, slot 64", 70),
    ("refused, slot 255", 70),
    ("refused, slot 256", 70),
    ("refused, slot 18446744073709551615", 70),
    ("refused, another slot above 63", 300),
    ("standing 0, n = 0", 1_700),
    ("standing 0, n = 1", 1_200),
    ("standing 0, n = 2 to 8", 3_200),
    ("standing 0, n > 8", 1_600),
    ("standing 1", 850),
    ("standing 2", 1_300),
    ("a list of more than 64 octets, accepted", 170),
    ("an empty store", 600),
    ("a full store", 1_300),
    ("a store with holes", 5_500),
    ("several roots", 4_300),
    ("stands in a chain of 1", 5_900),
    ("stands in a chain of 2", 3_900),
    ("stands in a chain of 3", 3_400),
    ("stands in a chain of 4", 2_900),
    ("stands in a chain of 5", 2_400),
    ("stands in a chain of 6", 2_100),
    ("stands in a chain of 7", 1_800),
    ("stands in a chain of 8", 1_500),
    ("does not stand, 7", 1_500),
    ("does not stand, 8", 2_100),
    ("does not stand, 10", 600),
    ("does not stand, 11", 340),
    ("does not stand, 12 at the second", 5_000),
    ("does not stand, 12 further up", 850),
    ("does not stand, 13", 800),
    ("does not stand, 18 in a chain of 9", 1_300),
    ("does not stand, 18 in a chain of 10 to 12", 1_100),
    ("does not stand, 18 in a longer chain", 550),
    ("does not stand, 18 in a ring", 180),
];
const FLOORS_ARE_OF: u64 = 20_000;

/// Counts a question about a slot by its answer and by what the slot holds.
pub fn add_stored(counts: &mut Counts, made: &Made, answer: &Found) {
    counts.add_troubles(&made.how, answer.number);
    if answer.number != 0 {
        counts.add(format!("stored {}", answer.number));
        counts.add(asked(made.slot));
        return;
    }
    counts.add(format!("slot {} is filled", made.slot));
    if made.buffer.len() > layout::LENGTH {
        counts.add("a buffer of more than 244 octets, accepted");
    }
    let Some(Ok(slots)) = &made.contents else {
        counts.add("stored 0, in a damaged store");
        return;
    };
    let entry = slots[made.slot as usize].as_ref().expect("a filled slot");
    let state = match entry.state {
        WITHDRAWN => "withdrawn",
        _ => "held",
    };
    let kind = match entry.kind {
        ROOT => "root",
        AUTHORITY => "authority",
        _ => "ticket",
    };
    counts.add(format!("stored 0, a {state} {kind}"));
    counts.add(format!("stored 0, {} rectangles", entry.rectangles.len()));
    for (what, length, most) in [
        ("name", entry.name.len(), 32),
        ("permissions", entry.permissions.len(), 16),
    ] {
        if length == 0 || length == most {
            counts.add(format!("stored 0, {what} of {length}"));
        }
    }
}

/// Which slot was asked for where the answer was a refusal.
fn asked(slot: u64) -> String {
    match slot {
        0..64 => "refused, a slot up to 63".into(),
        64 | 255 | 256 | u64::MAX => format!("refused, slot {slot}"),
        _ => "refused, another slot above 63".into(),
    }
}

/// Counts a question about what stands by its answer and by what the store has.
pub fn add_standing(counts: &mut Counts, made: &Made, answer: &Listed) {
    counts.add_troubles(&made.how, answer.number);
    counts.add(match (answer.number, answer.n) {
        (0, n @ (0 | 1)) => format!("standing 0, n = {n}"),
        (0, 2..=8) => "standing 0, n = 2 to 8".into(),
        (0, _) => "standing 0, n > 8".into(),
        (number, _) => format!("standing {number}"),
    });
    if answer.number == 0 && made.list.len() > SLOTS {
        counts.add("a list of more than 64 octets, accepted");
    }
    if let (Some(Ok(slots)), 0) = (&made.contents, answer.number) {
        add_store(counts, slots, made.second);
    }
}

/// Each way in which a certificate of the store stands or does not, once.
fn add_store(counts: &mut Counts, slots: &Slots, second: u32) {
    let told = |entry| standing::told(slots, entry, second);
    let ways: BTreeSet<String> = slots.iter().flatten().map(told).collect();
    ways.into_iter().for_each(|way| counts.add(way));
    match slots.iter().flatten().count() {
        0 => counts.add("an empty store"),
        SLOTS => counts.add("a full store"),
        _ => counts.add("a store with holes"),
    }
    let is_root = |entry: &&Entry| entry.kind == ROOT;
    if slots.iter().flatten().filter(is_root).count() > 1 {
        counts.add("several roots");
    }
}

pub fn check(counts: &Counts, cases: u64, replay: &str) {
    counts.check(&FLOORS, FLOORS_ARE_OF, cases, replay);
    let unseen = |slot: &usize| counts.seen(&format!("slot {slot} is filled")) == 0;
    let unseen: Vec<usize> = (0..SLOTS).filter(unseen).collect();
    assert!(unseen.is_empty(), "{replay}: slots {unseen:?}");
    counts.check_known(8, cases, replay);
    let names = BREAKS.iter().map(|(name, _)| *name);
    counts.check_troubles(names, replay);
}
