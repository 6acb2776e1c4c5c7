//! Every change of one bit of a slot.

use difftest::slot::{self, Field, Slot, SLOT_BITS, SLOT_LENGTH};

use crate::judge::is_valid;
use crate::stores::{around, large, put, small, Others, PLACES};

/// Fields of an authority in which any one bit may be another.
const FREE: [Field; 3] = [slot::ID, slot::ISSUER, slot::PARITY];
/// Fields in which none may.
const BOUND: [Field; 3] = [slot::STATE, slot::KIND, slot::PADDING];

/// Whether each change of one bit leaves the store valid.
fn flips(base: &Slot, store: &mut [u8], place: usize) -> Vec<bool> {
    let flip = |bit: usize| {
        let mut slot = *base;
        slot[bit / 8] ^= 0x80 >> (bit % 8);
        put(store, place, &slot);
        is_valid(store, &format!("bit {bit} of slot {place}"))
    };
    (0..SLOT_BITS).map(flip).collect()
}

fn bits(fields: &[Field]) -> Vec<usize> {
    fields.iter().flat_map(|f| f.at..f.at + f.width).collect()
}

/// Every change, in each place, alone and in a full store.
fn check(base: &Slot, judge: impl Fn(&[bool])) {
    let mut first: Option<Vec<bool>> = None;
    for place in PLACES {
        for others in [Others::None, Others::All] {
            let mut store = around(place, others);
            put(&mut store, place, base);
            assert!(is_valid(&store, "unchanged"), "unchanged");
            let valid = flips(base, &mut store, place);
            judge(&valid);
            // Neither the place nor what else the store holds matters.
            let expected = first.get_or_insert_with(|| valid.clone());
            assert_eq!(expected, &valid, "slot {place}, others {others:?}");
        }
    }
}

fn check_filled(base: &Slot) {
    let key: Vec<Field> = (0..32).map(|i| slot::KEY.nth(i)).collect();
    let free = [bits(&FREE), bits(&key)].concat();
    check(base, |valid| {
        assert!(free.iter().all(|&bit| valid[bit]), "a free field");
        assert!(bits(&BOUND).iter().all(|&bit| !valid[bit]), "a bound field");
    });
}

#[test]
fn of_a_large_record() {
    check_filled(&large().image());
}

#[test]
fn of_a_small_record() {
    check_filled(&small().image());
}

/// An empty slot is all zero.
#[test]
fn of_an_empty_slot() {
    check(&[0; SLOT_LENGTH], |valid| {
        assert_eq!(valid, [false; SLOT_BITS])
    });
}
