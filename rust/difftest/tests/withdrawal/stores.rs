//! What is asked of stores by hand.

pub use difftest::by_hand::{chain, of_the_paper, plain};
use difftest::compare::withdrawal;
use difftest::entry::{self, Slots};
use difftest::lists::List;
use difftest::slot::SLOTS;
use difftest::withdrawals::Withdrawal;

/// What a list is filled with, so that what is not written shows.
pub const FILL: u8 = 0xee;

/// The slots that all sides list, or their refusal. They leave what is behind.
pub fn listed(slots: &Slots, id: u8, second: u32) -> Result<Vec<u8>, u8> {
    let request = List {
        store: entry::store(slots),
        id: vec![id; 8],
        second,
        list: vec![FILL; SLOTS],
    };
    let answer = withdrawal::list(&request).unwrap_or_else(|said| panic!("{said}"));
    let (front, behind) = answer.list.split_at(answer.n);
    assert_eq!(behind, vec![FILL; SLOTS - answer.n], "behind the list");
    match answer.number {
        0 => Ok(front.to_vec()),
        number => Err(number),
    }
}

/// The store that all sides leave when they withdraw.
pub fn withdrawn(slots: &Slots, id: u8) -> Result<Vec<u8>, u8> {
    let request = Withdrawal {
        store: entry::store(slots),
        id: vec![id; 8],
    };
    let answer = withdrawal::withdraw(&request).unwrap_or_else(|said| panic!("{said}"));
    match answer.number {
        0 => Ok(answer.store),
        number => Err(number),
    }
}
