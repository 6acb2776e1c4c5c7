//! Stores, slots and requests that are timed.

use difftest::changes::{Change, Operation};
use difftest::compare;
use difftest::draft::Draft;
use difftest::entry::{self, Entry, HELD};
use difftest::issuers;
use difftest::plan::{self, Plan, AUTHORITY, ROOT, TICKET};
use difftest::random::Random;
use difftest::slot::SLOTS;

use crate::set::Set;

/// How many stores, slots and requests a set has.
pub const STORES: usize = 20;
const RECORDS: usize = 500;

/// Full of large records and of small ones, half filled, and empty.
pub fn stores(random: &mut Random) -> Vec<Set> {
    let mut set = |name, filled, entry: fn(&mut Random) -> Entry| Set {
        name,
        inputs: (0..STORES)
            .map(|_| store((0..filled).map(|_| entry(random)).collect(), random))
            .collect(),
        ..Set::default()
    };
    vec![
        set("stores, 64 large records", SLOTS, large),
        set("stores, 64 small records", SLOTS, small),
        set("stores, 32 varied records", SLOTS / 2, Entry::random),
        set("stores, empty", 0, Entry::random),
    ]
}

/// Slots with records of all sorts, and with large ones.
pub fn slots(random: &mut Random) -> Vec<Set> {
    let mut set = |name, entry: fn(&mut Random) -> Entry| Set {
        name,
        inputs: (0..RECORDS)
            .map(|_| entry(random).image().to_vec())
            .collect(),
        ..Set::default()
    };
    vec![
        set("slots, varied records", Entry::random),
        set("slots, large records", large),
    ]
}

/// Requests as a store and a certificate behind it, that are answered with a
/// number: for 0 in a store with one empty slot, for 17 in one that has the id.
pub fn requests(operation: Operation, number: u8, random: &mut Random) -> Set {
    Set {
        name: match number {
            0 => "63 records, and a certificate",
            _ => "63 records, and one of them",
        },
        inputs: (0..STORES)
            .map(|_| request(operation, number, random))
            .collect(),
        ..Set::default()
    }
}

/// All sides must agree on a request before it is timed.
fn request(operation: Operation, number: u8, random: &mut Random) -> Vec<u8> {
    let kind = match operation {
        Operation::Install => ROOT,
        Operation::Admit => random.pick(&[TICKET, AUTHORITY]),
    };
    let plan = Plan::of_kind(kind, random);
    let certificate = Draft::of(&plan).encode().octets();
    let mut entries = vec![issuers::sound(&plan, random)];
    if number != 0 {
        let id = reference::id(&certificate).expect("a plan is a valid certificate");
        entries.push(Entry::of(&plan, id, HELD));
    }
    entries.resize_with(SLOTS - 1, || Entry::random(random));
    let change = Change {
        operation,
        store: store(entries, random),
        certificate,
        verdict: 1,
    };
    let answer = compare::change(&change).unwrap_or_else(|said| panic!("{said}"));
    assert_eq!(answer.number, number, "{operation:?}");
    [change.store, change.certificate].concat()
}

pub fn large(random: &mut Random) -> Entry {
    Entry {
        name: random.octets(32),
        rectangles: (0..4).map(|_| plan::rectangle(random)).collect(),
        permissions: (0..16).map(|_| plan::its_aid(random)).collect(),
        ..Entry::random(random)
    }
}

pub fn small(random: &mut Random) -> Entry {
    Entry {
        name: random.octets(4),
        rectangles: vec![plan::rectangle(random)],
        permissions: vec![36, 37],
        ..Entry::random(random)
    }
}

/// The entries in random slots.
fn store(entries: Vec<Entry>, random: &mut Random) -> Vec<u8> {
    entry::store(&entry::in_any_slots(entries, random))
}
