//! What is asked of stores by hand; all sides must agree.

use difftest::buffers::FILLS;
use difftest::compare::overview;
use difftest::entry::{self, Slots};
use difftest::overview::lookups::{Found, Lookup};
use difftest::overview::standings::Standing;
use difftest::slot::SLOTS;

/// What is lent for what a slot holds; more than need be.
pub const LENT: [u8; 250] = [FILLS[0]; 250];

pub fn stored(store: &[u8], slot: u64) -> Found {
    let lookup = Lookup {
        store: store.to_vec(),
        slot,
    };
    overview::stored(&lookup, &LENT).unwrap_or_else(|said| panic!("{said}"))
}

/// The slots that stand. What is behind them in the list stays.
pub fn standing(slots: &Slots, second: u32) -> Vec<u8> {
    let request = Standing {
        store: entry::store(slots),
        second,
        list: vec![FILLS[0]; SLOTS],
    };
    let answer = overview::standing(&request).unwrap_or_else(|said| panic!("{said}"));
    assert_eq!(answer.number, 0, "a valid store");
    let (front, behind) = answer.list.split_at(answer.n);
    assert!(behind.iter().all(|&octet| octet == FILLS[0]), "behind");
    front.to_vec()
}
