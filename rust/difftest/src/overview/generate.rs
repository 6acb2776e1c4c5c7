//! Questions about a store, made up at random: what a slot holds, and what
//! stands at a second.

use super::expect;
use super::layout;
use super::lookups::{Found, Lookup};
use super::standings::Standing;
use crate::breaks::{self, Break};
use crate::broken_stores;
use crate::entry::{self, Entry, Slots};
use crate::forest;
use crate::lists::Listed;
use crate::outcome::Contents;
use crate::questions;
use crate::random::Random;
use crate::slot::{SLOTS, STORE_LENGTH};

/// A store, and what is asked about it.
pub struct Made {
    pub store: Vec<u8>,
    pub slot: u64,
    /// What is lent for what the slot holds.
    pub buffer: Vec<u8>,
    pub second: u32,
    /// What is lent for the slots that stand.
    pub list: Vec<u8>,
    /// What is known of the store; nothing of a damaged one.
    pub contents: Option<Contents>,
    /// What is broken in it, for the report of a failure.
    pub how: Vec<&'static str>,
}

/// Every break and its name.
pub const BREAKS: [Break<Made>; 7] = [
    ("a slot above 63", |made, random| made.slot = above(random)),
    ("a buffer of another length", |made, random| {
        let length = random.pick(&[0, 1, 242, 243, 245, 246, 500]);
        made.buffer = random.octets(length);
    }),
    ("a list of another length", |made, random| {
        let length = random.pick(&[0, 1, 62, 63, 65, 66, 300]);
        made.list = random.octets(length);
    }),
    ("a damaged store", damaged),
    ("a bad store", |made, random| {
        made.contents = Some(Err(2));
        broken_stores::set_padding(&mut made.store, random);
    }),
    ("a store of any octets", |made, random| {
        made.contents = None;
        made.store = random.octets(STORE_LENGTH);
    }),
    ("a store of another length", |made, random| {
        broken_stores::resize(&mut made.store, random)
    }),
];

/// Questions that are sound, most often, or have one or two breaks.
pub fn made(random: &mut Random) -> Made {
    let mut made = sound(random);
    let count = random.pick(&[0, 0, 0, 0, 0, 0, 1, 1, 2]);
    made.how = breaks::make(&mut made, count, &BREAKS, random);
    made
}

/// About a valid store: any slot, filled most often, and a second in or near the
/// period of a certificate.
pub fn sound(random: &mut Random) -> Made {
    let slots = slots(random);
    let filled: Vec<usize> = (0..SLOTS).filter(|&slot| slots[slot].is_some()).collect();
    let slot = match filled.len() {
        0 => random.below(SLOTS),
        _ if random.once_in(5) => random.below(SLOTS),
        count => filled[random.below(count)],
    };
    let near = slots[slot].as_ref().or(slots.iter().flatten().next());
    let any = random.next() as u32;
    Made {
        store: entry::store(&slots),
        slot: slot as u64,
        buffer: random.octets(layout::LENGTH),
        second: near.map_or(any, |entry| questions::second(entry, random)),
        list: random.octets(SLOTS),
        contents: Some(Ok(slots)),
        how: Vec::new(),
    }
}

/// Chains, most often; else certificates that are strangers to each other, as
/// many as there is room for or none.
pub fn slots(random: &mut Random) -> Slots {
    if !random.once_in(4) {
        return forest::slots(random);
    }
    let any = random.below(SLOTS + 1);
    let count = random.pick(&[0, any, SLOTS]);
    let mut entries: Vec<Entry> = Vec::new();
    for _ in 0..count {
        let id = forest::new_id(&entries, random);
        entries.push(Entry {
            id,
            ..Entry::random(random)
        });
    }
    entry::in_any_slots(entries, random)
}

/// Those whose last octets alone would be those of a slot, and others.
fn above(random: &mut Random) -> u64 {
    let slot = random.below(SLOTS) as u64;
    let any = SLOTS as u64 + random.next() % (u64::MAX - SLOTS as u64);
    let alike = slot | 1 << (6 + random.below(58));
    random.pick(&[64, 65, 255, 256, u64::MAX, alike, alike, any])
}

/// Still valid, now and then.
fn damaged(made: &mut Made, random: &mut Random) {
    made.contents = None;
    broken_stores::damage(&mut made.store, random);
}

impl Made {
    pub fn lookup(&self) -> Lookup {
        Lookup {
            store: self.store.clone(),
            slot: self.slot,
        }
    }

    pub fn standing(&self) -> Standing {
        Standing {
            store: self.store.clone(),
            second: self.second,
            list: self.list.clone(),
        }
    }

    /// What the slot holds, if it is known.
    pub fn found(&self) -> Option<Found> {
        let contents = self.contents.as_ref()?;
        Some(expect::stored(contents, &self.lookup(), &self.buffer))
    }

    /// What stands, if it is known.
    pub fn listed(&self) -> Option<Listed> {
        let contents = self.contents.as_ref()?;
        Some(expect::standing(contents, &self.standing()))
    }
}
