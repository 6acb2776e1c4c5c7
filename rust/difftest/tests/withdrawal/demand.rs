//! Demand 3 itself, with the reference's word for what stands: the list is what
//! the withdrawal takes down, and the withdrawal changes nothing else.

use std::collections::BTreeMap;

use difftest::lists::{List, Listed};
use difftest::questions::{self, Made};
use difftest::random::Random;
use difftest::seed;
use difftest::sides::Side;
use difftest::slot::{self, Slot, SLOTS, SLOT_LENGTH, STORE_LENGTH};

const STORES: u64 = 1_000;
/// How many of them must have a list of none, of one and of more.
const FLOORS: [u64; 3] = [150, 100, 150];

fn standing(store: &[u8], second: u32) -> [bool; SLOTS] {
    std::array::from_fn(|slot| reference::stands(store, slot, second))
}

/// The bits in which two stores differ: the slot, and which bit of it.
fn changed_bits(before: &[u8], after: &[u8]) -> Vec<(usize, usize)> {
    let differs = |bit: &usize| (before[bit / 8] ^ after[bit / 8]) & (0x80 >> (bit % 8)) != 0;
    let place = |bit| (bit / slot::SLOT_BITS, bit % slot::SLOT_BITS);
    (0..8 * STORE_LENGTH).filter(differs).map(place).collect()
}

fn slot_of(store: &[u8], number: usize) -> &Slot {
    let octets = &store[number * SLOT_LENGTH..][..SLOT_LENGTH];
    octets.try_into().expect("a slot's length")
}

/// Lists and withdraws by a side, and answers n; nothing if it refused.
fn check(made: &Made, side: Side, replay: &str) -> Option<usize> {
    let before = &made.list.store;
    assert!(reference::store_is_valid(before), "{replay}: before");
    let listed = made.list.ask(side);
    let withdrawn = made.withdrawal().ask(side);
    assert_eq!(listed.number, withdrawn.number, "{replay}: the numbers");
    if listed.number != 0 {
        return None;
    }
    let after = &withdrawn.store;
    assert!(reference::store_is_valid(after), "{replay}: after");
    check_list(made, &listed, after, replay);
    check_bits(made, after, replay);
    Some(listed.n)
}

/// The list is the slots that stand before and not after, ascending; the
/// others stand after exactly when they stood before.
fn check_list(made: &Made, listed: &Listed, after: &[u8], replay: &str) {
    let List {
        store,
        second,
        list: lent,
        ..
    } = &made.list;
    let (stood, stands) = (standing(store, *second), standing(after, *second));
    let fell = |slot: &usize| stood[*slot] && !stands[*slot];
    let fallen: Vec<usize> = (0..SLOTS).filter(fell).collect();
    let (front, behind) = listed.list.split_at(listed.n);
    let front: Vec<usize> = front.iter().map(|&slot| slot.into()).collect();
    assert_eq!(front, fallen, "{replay}: the list");
    assert_eq!(behind, &lent[listed.n..], "{replay}: behind the list");
    for slot in (0..SLOTS).filter(|slot| !front.contains(slot)) {
        assert_eq!(stands[slot], stood[slot], "{replay}: slot {slot}");
    }
}

/// The two bits of state of the slot with the id changed, and no other bit.
fn check_bits(made: &Made, after: &[u8], replay: &str) {
    let before = &made.list.store[..];
    let [one, other] = changed_bits(before, after)[..] else {
        panic!("{replay}: not two bits changed");
    };
    let (slot, state) = (one.0, slot::STATE.at);
    assert_eq!((one.1, other), (state, (slot, state + 1)), "{replay}");
    assert_eq!(slot_of(before, slot)[..8], made.list.id, "{replay}: the id");
    let states = [before, after].map(|store| slot::STATE.get(slot_of(store, slot)));
    assert_eq!(states, [1, 2], "{replay}: held, then withdrawn");
}

#[test]
fn the_list_is_what_falls() {
    let seed = seed::take("demand 3");
    let mut lengths: BTreeMap<usize, u64> = BTreeMap::new();
    let (mut stores, mut case) = (0, 0);
    while stores < STORES {
        let made = questions::sound(&mut Random::for_case(seed, case));
        let answers = [Side::Reference, Side::Library].map(|side| {
            let replay = format!("DIFFTEST_SEED={seed}, case {case}, {side:?}");
            check(&made, side, &replay)
        });
        assert_eq!(answers[0], answers[1], "DIFFTEST_SEED={seed}, case {case}");
        // A certificate that is withdrawn already is refused: another store.
        if let Some(n) = answers[0] {
            *lengths.entry(n).or_default() += 1;
            stores += 1;
        }
        case += 1;
    }
    seed::tell(&format!(
        "demand 3: {STORES} stores, n and how often {lengths:?}"
    ));
    let mut counts = [0; 3];
    for (n, count) in lengths {
        counts[n.min(2)] += count;
    }
    for (n, (count, floor)) in counts.into_iter().zip(FLOORS).enumerate() {
        assert!(count >= floor, "DIFFTEST_SEED={seed}: {count} lists of {n}");
    }
}
