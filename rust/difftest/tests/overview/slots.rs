//! Every slot of a store, and numbers that are no slot's.

use difftest::by_hand::of_the_paper;
use difftest::compare::overview;
use difftest::entry::{self, Slots, HELD, WITHDRAWN};
use difftest::overview::expect;
use difftest::overview::generate;
use difftest::overview::lookups::{Found, Lookup};
use difftest::plan::{AUTHORITY, ROOT, TICKET};
use difftest::random::Random;
use difftest::seed;
use difftest::slot::SLOTS;

use crate::asking::{stored, LENT};

const STORES: u64 = 60;

/// Numbers above 63, some with the last octets of a slot's number.
const ABOVE: [u64; 9] = [64, 65, 127, 255, 256, 300, 1 << 32, 1 << 63, u64::MAX];

fn refused(number: u8) -> Found {
    Found {
        number,
        buffer: LENT.to_vec(),
    }
}

/// Slot 1 of the paper's store: "authority 02.., issuer 01.., 100 to 900, name
/// B1", "permission 36 alone, no region, key and parity zero".
#[test]
fn slot_of_the_paper() {
    let mut expected = LENT.to_vec();
    expected[..244].fill(0);
    expected[..8].fill(2);
    expected[8..16].fill(1);
    (expected[19], expected[23], expected[27]) = (HELD, AUTHORITY, 100);
    expected[34..36].copy_from_slice(&900_u16.to_be_bytes());
    expected[39] = 2;
    expected[40..42].copy_from_slice(b"B1");
    (expected[179], expected[183]) = (1, 36);
    let store = entry::store(&of_the_paper());
    let found = stored(&store, 1);
    assert_eq!(found.number, 0);
    assert_eq!(found.buffer, expected);
    // A root's issuer is zero; a ticket has kind 1.
    let (root, ticket) = (stored(&store, 0).buffer, stored(&store, 3).buffer);
    assert_eq!(
        (&root[..16], root[23]),
        (&[1, 1, 1, 1, 1, 1, 1, 1, 0, 0, 0, 0, 0, 0, 0, 0][..], ROOT)
    );
    assert_eq!((&ticket[8..16], ticket[23]), (&[2; 8][..], TICKET));
    assert_eq!(stored(&store, 6), refused(7));
}

/// "1 (store's length, slot above 63), 2, 7": the first of them is the answer.
#[test]
fn order_of_refusals() {
    let good = entry::store(&of_the_paper());
    let mut bad = good.clone();
    bad[13_567] = 1;
    let longer = [&good[..], &[0]].concat();
    for slot in (0..64).chain(ABOVE) {
        let is_slot = slot < 64;
        let first = |number| refused(if is_slot { number } else { 1 });
        assert_eq!(stored(&bad, slot), first(2), "{slot}");
        assert_eq!(stored(&[0; 13_568], slot), first(7), "{slot}");
        for store in [&good[1..], &longer, &bad[1..], &[]] {
            assert_eq!(stored(store, slot), refused(1), "{slot}");
        }
        let found = stored(&good, slot);
        assert_eq!(found.number == 0, slot < 6, "{slot}");
        if slot >= 6 {
            assert_eq!(found, first(7), "{slot}");
        }
    }
}

/// All slots of one store and numbers above them; how many were held, withdrawn
/// and empty.
fn check(slots: &Slots, replay: &str) -> [usize; 3] {
    let store = entry::store(slots);
    let mut counts = [0; 3];
    for slot in (0..SLOTS as u64).chain(ABOVE) {
        let store = store.clone();
        let lookup = Lookup { store, slot };
        let agreed = overview::stored(&lookup, &LENT);
        let agreed = agreed.unwrap_or_else(|said| panic!("{said}\n{replay}, slot {slot}"));
        let known = expect::stored(&Ok(slots.clone()), &lookup, &LENT);
        let difference = overview::finds(&agreed, &known);
        assert_eq!(difference, None, "{replay}, slot {slot}");
        if let Some(entry) = slots.get(slot as usize) {
            let state = entry.as_ref().map_or(0, |entry| entry.state);
            counts[usize::from(state)] += 1;
        }
    }
    counts
}

#[test]
fn every_slot() {
    let seed = seed::take("every slot");
    let mut counts = [0; 3];
    for case in 0..STORES {
        let slots = generate::slots(&mut Random::for_case(seed, case));
        let replay = format!("DIFFTEST_SEED={seed}, case {case}");
        for (count, more) in counts.iter_mut().zip(check(&slots, &replay)) {
            *count += more;
        }
    }
    let [empty, held, withdrawn] = [0, HELD, WITHDRAWN].map(|state| counts[usize::from(state)]);
    seed::tell(&format!(
        "every slot: {STORES} stores, slots empty {empty}, held {held}, withdrawn {withdrawn}"
    ));
    let floors = [(empty, 1_000), (held, 400), (withdrawn, 10)];
    for (count, floor) in floors {
        assert!(count >= floor, "DIFFTEST_SEED={seed}: {counts:?}");
    }
}
