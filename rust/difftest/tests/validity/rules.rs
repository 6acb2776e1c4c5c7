//! The rules of a slot, each with slots that keep it and slots that break it.
//! The expectations are written by hand from paper 01, "The store", and open
//! points 20 to 23.

use difftest::entry::{Entry, HELD, WITHDRAWN};
use difftest::plan::{AUTHORITY, ROOT, TICKET};
use difftest::slot::{self, Field, Slot, SLOT_LENGTH};

use crate::judge::is_valid;
use crate::places;
use crate::stores::{around, large, put, small, Others, PLACES};

/// What was changed, the slot, and whether it is valid.
pub type Case = (String, Slot, bool);

const LATEST: u64 = 262_777_739_970;

/// A slot with fields overwritten.
pub fn with(entry: &Entry, changes: &[(Field, u64)]) -> Slot {
    let mut slot = entry.image();
    for (field, value) in changes {
        field.put(&mut slot, *value);
    }
    slot
}

/// Every case at the first, a middle and the last slot, with more or fewer
/// others. A withdrawn slot keeps every rule that a held one keeps.
fn check(rule: &str, cases: &[Case]) {
    for expected in [true, false] {
        let both_ways = cases.iter().any(|(_, _, valid)| *valid == expected);
        assert!(both_ways, "{rule}: no case is valid={expected}");
    }
    let others = [Others::All, Others::EverySecond, Others::None];
    for (place, others) in PLACES.into_iter().zip(others) {
        let mut store = around(place, others);
        for (what, slot, valid) in cases {
            for slot in states(slot) {
                put(&mut store, place, &slot);
                let what = format!("{rule}, {what}, slot {place}, others {others:?}");
                assert_eq!(is_valid(&store, &what), *valid, "{what}");
            }
        }
    }
}

/// The slot as it is and, if it is held, withdrawn.
fn states(slot: &Slot) -> Vec<Slot> {
    let mut slots = vec![*slot];
    if slot::STATE.get(slot) == HELD.into() {
        let mut withdrawn = *slot;
        slot::STATE.put(&mut withdrawn, WITHDRAWN.into());
        slots.push(withdrawn);
    }
    slots
}

/// The first and the last that is used of so many, and the first and the last
/// that is not; none if more are used than there are.
fn ends(used: usize, all: usize) -> Vec<usize> {
    let mut places = vec![0, used.saturating_sub(1), used, all - 1];
    places.dedup();
    places.retain(|&at| used <= all && at < all);
    places
}

fn pairs(places: &[usize], values: &[u64]) -> Vec<(usize, u64)> {
    let with_all = |&at| values.iter().map(move |&value| (at, value));
    places.iter().flat_map(with_all).collect()
}

#[test]
fn state() {
    let case = |state, valid| {
        let slot = with(&small(), &[(slot::STATE, state)]);
        (format!("state {state}"), slot, valid)
    };
    // State 0 with other fields left is an empty slot that is not zero.
    let mut cases = [(0, false), (1, true), (2, true), (3, false)]
        .map(|(s, v)| case(s, v))
        .to_vec();
    cases.push(("empty".into(), [0; SLOT_LENGTH], true));
    let mut lone = [0; SLOT_LENGTH];
    slot::PADDING.put(&mut lone, 1);
    cases.push(("empty but for its last bit".into(), lone, false));
    check("state", &cases);
}

#[test]
fn kind() {
    let mut cases = Vec::new();
    for kind in 0..8 {
        for (issuer, most) in [(0xb2, 2), (0, 4)] {
            let slot = with(&small(), &[(slot::KIND, kind), (slot::ISSUER, issuer)]);
            let valid = [1, 2, 4].contains(&kind) && kind <= most;
            cases.push((format!("kind {kind}, issuer {issuer}"), slot, valid));
        }
    }
    check("kind", &cases);
}

/// Zero for a root; anything, zero too, for the others.
#[test]
fn issuer() {
    let mut cases = Vec::new();
    for kind in [TICKET, AUTHORITY, ROOT] {
        for issuer in (0..64).map(|bit| 1 << bit).chain([0, u64::MAX]) {
            let changes = [(slot::KIND, kind.into()), (slot::ISSUER, issuer)];
            let valid = kind != ROOT || issuer == 0;
            let what = format!("kind {kind}, issuer {issuer:016x}");
            cases.push((what, with(&small(), &changes), valid));
        }
    }
    check("issuer", &cases);
}

#[test]
fn period() {
    let last = u64::from(u32::MAX);
    let case = |(start, end, valid)| {
        let slot = with(&large(), &[(slot::START, start), (slot::END, end)]);
        (format!("{start} to {end}"), slot, valid)
    };
    let cases = [
        (0, 0, false),
        (0, 1, true),
        (5, 5, false),
        (5, 6, true),
        (6, 5, false),
        (1 << 31, 1 << 31, false),
        (1 << 31, (1 << 31) + 1, true),
        (last, 0, false),
        (last, last, false),
        (last, last + 1, true),
        (last - 1, last, true),
        (200, 5_000_000_007, true), // no form of a period gives this end
        (0, LATEST, true),
        (last, LATEST, true),
        (0, LATEST + 1, false),
        (last, LATEST + 1, false),
        (0, (1 << 38) - 1, false),
    ];
    check("period", &cases.map(case));
}

#[test]
fn name() {
    let mut cases = Vec::new();
    for length in 0..64 {
        let named = Entry {
            name: vec![0x5a; length.min(32)],
            ..small()
        };
        let lengthened = |more: &[(Field, u64)]| {
            with(
                &named,
                &[&[(slot::NAME_LENGTH, length as u64)], more].concat(),
            )
        };
        let what = format!("length {length}");
        cases.push((what.clone(), lengthened(&[]), length <= 32));
        // Zeros may stand inside the name, and nothing else behind it.
        for at in ends(length, 32) {
            let zero = lengthened(&[(slot::NAME.nth(at), 0)]);
            cases.push((format!("{what}, octet {at} zero"), zero, true));
            for octet in [1, 0x80] {
                let slot = lengthened(&[(slot::NAME.nth(at), octet)]);
                cases.push((format!("{what}, octet {at} is {octet}"), slot, at < length));
            }
        }
    }
    check("name", &cases);
}

/// Any id, any key of any parity.
#[test]
fn free_fields() {
    let mut cases = vec![
        ("id zero".into(), with(&small(), &[(slot::ID, 0)]), true),
        (
            "padding".into(),
            with(&small(), &[(slot::PADDING, 1)]),
            false,
        ),
    ];
    for bit in 0..slot::ID.width {
        let slot = with(&small(), &[(slot::ID, 1 << bit)]);
        cases.push((format!("id with bit {bit}"), slot, true));
    }
    for (at, octet) in (0..32).flat_map(|at| [(at, 0), (at, 0xff)]) {
        for parity in [0, 1] {
            let changes = [(slot::KEY.nth(at), octet), (slot::PARITY, parity)];
            let what = format!("parity {parity}, key octet {at} is {octet}");
            cases.push((what, with(&small(), &changes), true));
        }
    }
    check("free fields", &cases);
}

#[test]
fn rectangles() {
    check("rectangle count", &places::counts());
    check("unused rectangles", &places::unused());
    for which in 0..4 {
        check(
            &format!("edges of rectangle {which}"),
            &places::edges(which),
        );
    }
}

#[test]
fn permissions() {
    let mut cases = Vec::new();
    for held in 0..=16_usize {
        let entry = Entry {
            permissions: vec![36; held],
            ..small()
        };
        for count in 0..32 {
            // One more than is held is the permission 0; one less leaves 36 in unused room.
            let slot = with(&entry, &[(slot::PERMISSION_COUNT, count as u64)]);
            let valid = held <= count && count <= 16;
            cases.push((format!("{held} permissions, count {count}"), slot, valid));
        }
        for (at, value) in pairs(&ends(held, 16), &[1, 1 << 27, (1 << 28) - 1]) {
            let slot = with(&entry, &[(slot::PERMISSIONS.nth(at), value)]);
            let what = format!("{held} permissions, {value} as number {at}");
            cases.push((what, slot, at < held));
        }
    }
    check("permissions", &cases);
}

#[test]
fn padding() {
    let case = |entry: &Entry, padding| {
        let slot = with(entry, &[(slot::PADDING, padding)]);
        (format!("padding {padding}"), slot, padding == 0)
    };
    let cases: Vec<Case> = (0..64)
        .flat_map(|padding| [case(&small(), padding), case(&large(), padding)])
        .collect();
    check("padding", &cases);
}
