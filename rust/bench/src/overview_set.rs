//! Stores that are looked into, and what is asked of them.

use difftest::compare::overview;
use difftest::entry::{self, Entry, HELD};
use difftest::overview::lookups::Lookup;
use difftest::overview::standings::Standing;
use difftest::plan::{AUTHORITY, ROOT, TICKET};
use difftest::random::Random;
use difftest::slot::{SLOTS, STORE_LENGTH};
use nattveldi::raw::{ACCEPTED, STORED_LENGTH};

use crate::chain_set::{self, Size, CHAIN, SECOND};
use crate::set::Set;
use crate::store_set::{self, STORES};

const UNKNOWN: u8 = 7;
/// A root, some authorities below it, and tickets in all other slots.
const AUTHORITIES: usize = 3;

/// Stores with a slot behind each: filled ones, and an empty one.
pub fn slots(random: &mut Random) -> Vec<Set> {
    let mut set = |name, filled, entry: fn(&mut Random) -> Entry, number| Set {
        name,
        inputs: (0..STORES)
            .map(|_| slot((0..filled).map(|_| entry(random)).collect(), number, random))
            .collect(),
        ..Set::default()
    };
    let (large, small) = (store_set::large, store_set::small);
    vec![
        set("64 large records, any slot", SLOTS, large, ACCEPTED),
        set("64 small records, any slot", SLOTS, small, ACCEPTED),
        set("32 small records, an empty slot", SLOTS / 2, small, UNKNOWN),
    ]
}

/// All sides must agree before they are timed.
fn slot(entries: Vec<Entry>, number: u8, random: &mut Random) -> Vec<u8> {
    let slots = entry::in_any_slots(entries, random);
    let is_empty = number == UNKNOWN;
    let wanted: Vec<usize> = (0..SLOTS)
        .filter(|&slot| slots[slot].is_none() == is_empty)
        .collect();
    let slot = random.pick(&wanted);
    let store = entry::store(&slots);
    let input = [&store[..], &[slot as u8]].concat();
    let slot = slot as u64;
    let agreed = overview::stored(&Lookup { store, slot }, &[0; STORED_LENGTH]);
    let agreed = agreed.unwrap_or_else(|said| panic!("{said}"));
    assert_eq!(agreed.number, number, "stored");
    input
}

/// Stores with a second behind each: full ones in which all stand, in chains of
/// eight and flat, and empty ones.
pub fn seconds(random: &mut Random) -> Vec<Set> {
    let mut set = |name, count, entries: fn(&mut Random) -> Vec<Entry>| Set {
        name,
        inputs: (0..STORES)
            .map(|_| second(entries(random), count, random))
            .collect(),
        ..Set::default()
    };
    vec![
        set("8 chains of 8, a region, 3 permissions", SLOTS, |random| {
            chains(Size::Bounded, random)
        }),
        set("8 chains of 8, no region, 1 permission", SLOTS, |random| {
            chains(Size::Plain, random)
        }),
        set("a root, 3 authorities, 60 tickets", SLOTS, flat),
        set("empty stores", 0, |_| Vec::new()),
    ]
}

fn chains(size: Size, random: &mut Random) -> Vec<Entry> {
    let chain = |_| chain_set::chain(size, random);
    (0..SLOTS / CHAIN).flat_map(chain).collect()
}

/// With regions and permissions to compare.
fn flat(random: &mut Random) -> Vec<Entry> {
    let links = chain_set::chain(Size::Bounded, random);
    let below = |kind, link: &Entry, issuer: &Entry, random: &mut Random| Entry {
        id: random.array(),
        issuer: issuer.id,
        state: HELD,
        kind,
        ..link.clone()
    };
    let mut entries = vec![links[0].clone()];
    assert_eq!(entries[0].kind, ROOT);
    for _ in 0..AUTHORITIES {
        entries.push(below(AUTHORITY, &links[1], &links[0], random));
    }
    while entries.len() < SLOTS {
        let issuer = entries[1 + random.below(AUTHORITIES)].clone();
        entries.push(below(TICKET, &links[2], &issuer, random));
    }
    entries
}

/// All sides must agree before they are timed: so many stand.
fn second(entries: Vec<Entry>, count: usize, random: &mut Random) -> Vec<u8> {
    let request = Standing {
        store: entry::store(&entry::in_any_slots(entries, random)),
        second: SECOND,
        list: vec![0; SLOTS],
    };
    let agreed = overview::standing(&request).unwrap_or_else(|said| panic!("{said}"));
    assert_eq!((agreed.number, agreed.n), (ACCEPTED, count), "standing");
    assert_eq!(request.store.len(), STORE_LENGTH);
    [&request.store[..], &SECOND.to_be_bytes()].concat()
}
