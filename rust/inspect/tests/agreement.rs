//! This tool's own reading against the library, on many damaged inputs: the
//! number is the library's, and a fault stands inside the input or at its end.
//! Each test also asks that every number was met often, so that it is not empty.

mod common;

use std::collections::BTreeMap;

use common::random::Random;
use common::{example, slots};
use inspect::json::Value;
use inspect::proved;
use inspect::reading::{self, Field, Reading};
use inspect::store::{first_broken, Record, Slots};
use inspect::{example as built, verdict};
use nattveldi::{Rectangle, Refusal};

const INPUTS: usize = 20_000;

/// How often each number was met.
#[derive(Default)]
struct Counts(BTreeMap<u8, usize>);

impl Counts {
    fn count(&mut self, number: u8) {
        *self.0.entry(number).or_default() += 1;
    }

    fn at_least(&self, floor: usize, numbers: &[u8]) {
        for number in numbers {
            let met = self.0.get(number).copied().unwrap_or(0);
            assert!(met >= floor, "{number} only {met} times: {:?}", self.0);
        }
    }
}

fn check<T>(octets: &[u8], own: &Reading<T>, library: u8) {
    assert_eq!(own.number(), library, "{octets:02x?}");
    if let Err(fault) = &own.outcome {
        assert!(fault.offset <= octets.len(), "{octets:02x?}");
        assert!(!fault.reason.is_empty());
    }
    check_fields(octets, &own.fields);
}

/// The fields follow each other without a gap from octet 0 on.
fn check_fields(octets: &[u8], fields: &[Field]) {
    let mut at = 0;
    for field in fields {
        assert_eq!(field.offset, at, "{} in {octets:02x?}", field.name);
        at += field.length;
    }
    assert!(at <= octets.len());
}

/// Certificates of all kinds, with all forms of a period and an encryption key.
fn certificates() -> Vec<Vec<u8>> {
    let names = ["root.hex", "authority.hex", "ticket.hex", "unit.hex"];
    let mut all: Vec<Vec<u8>> = names.iter().map(|name| example(name)).collect();
    all.extend([built::root(), built::authority(), built::ticket()]);
    all.push(many_permissions(16));
    all.push(many_permissions(17));
    all.push(many_rectangles(4));
    all.push(many_rectangles(5));
    all
}

/// A root with an encryption key, so many permissions, and an end alone.
fn many_permissions(count: u8) -> Vec<u8> {
    let keys = [&[0, 0, 2][..], &[7; 32], &[1, 1, 0, 3], &[8; 32]].concat();
    let permissions = [vec![32, count], (0..count).collect()].concat();
    let length = (keys.len() + permissions.len()) as u8;
    let head = vec![2, 0, 4, 1, b'R', length];
    let rest = [&[5, 0, 0, 0, 3, 232][..], &[0; 66]].concat();
    [head, keys, permissions, rest].concat()
}

/// A ticket with so many rectangles and no permission.
fn many_rectangles(count: u8) -> Vec<u8> {
    let key = [&[37, 0, 0, 3][..], &[7; 32], &[33, 0]].concat();
    let rectangle = [0, 0, 0, 9, 0, 0, 0, 1, 0, 0, 0, 2, 0, 0, 0, 8];
    let region = [vec![3, 2, 16 * count], rectangle.repeat(count.into())].concat();
    let restrictions = [vec![5 + region.len() as u8, 0, 0, 0, 3, 232], region].concat();
    let head = [&[2, 1][..], &[5; 8], &[1, 0]].concat();
    [head, key, restrictions, vec![0; 66]].concat()
}

fn messages() -> Vec<Vec<u8>> {
    let mut all = vec![
        example("message-by-id.hex"),
        example("message-with-certificate.hex"),
        built::by_id(),
        built::with_certificate(),
    ];
    all.push(all_headers());
    all
}

/// Every header once.
fn all_headers() -> Vec<u8> {
    let front = [&[128, 1][..], &[5; 8], &[0], &[1; 8], &[1], &[2; 8], &[9]].concat();
    let back = [
        2, 0, 0, 1, 0, 3, 0, 0, 0, 1, 0, 0, 0, 2, 0xff, 0xff, 4, 6, 1, 2, 3, 4, 5, 6, 5, 0x80, 0x90,
    ];
    let headers = [front, back.to_vec()].concat();
    let head = vec![2, headers.len() as u8];
    let rest = [&[1, 0, 67, 1][..], &[0; 66]].concat();
    [head, headers, rest].concat()
}

#[test]
fn certificates_as_they_are() {
    let expected = [0, 0, 0, 0, 0, 0, 0, 0, 6, 0, 6];
    for (octets, number) in certificates().iter().zip(expected) {
        check(octets, &reading::certificate(octets), number);
        assert_eq!(verdict::certificate(octets), number);
    }
    for octets in messages() {
        check(&octets, &reading::message(&octets), 0);
        assert_eq!(verdict::message(&octets), 0);
    }
}

#[test]
fn damaged_certificates() {
    let (bases, mut random) = (certificates(), Random::new(0x5eed));
    let mut counts = Counts::default();
    for _ in 0..INPUTS {
        let mut octets = bases[random.below(bases.len())].clone();
        random.damage(&mut octets);
        let library = verdict::certificate(&octets);
        check(&octets, &reading::certificate(&octets), library);
        counts.count(library);
    }
    counts.at_least(1_000, &[0, 4, 5, 6]);
}

/// What the library reads stands where this tool's fields say it does.
#[test]
fn parts_are_the_librarys() {
    for octets in certificates() {
        let Ok(fields) = proved::read(&octets) else {
            continue;
        };
        let own = reading::certificate(&octets).fields;
        let starts = |name| own.iter().find(|f| f.name == name).map(|f| f.offset);
        assert_eq!(starts("signature.algorithm"), Some(fields.signed.length));
        assert_eq!(starts("public_key.x"), Some(fields.key.x.start));
        let issuer = fields.issuer.map(|part| part.start);
        assert_eq!(starts("signer_info.digest"), issuer);
        let permissions = own.iter().filter(|field| field.name == "its_aid");
        let own_aids: Vec<&Value> = permissions.clone().map(|f| &f.value.value).collect();
        let aids = fields.permissions().iter();
        let values: Vec<Value> = aids.clone().map(|p| p.its_aid.into()).collect();
        assert_eq!(own_aids, values.iter().collect::<Vec<_>>());
        let own_aids: Vec<&str> = permissions.map(|field| &field.value.words[..]).collect();
        let aids: Vec<String> = aids.map(|p| p.its_aid.to_string()).collect();
        assert_eq!(own_aids, aids);
    }
}

#[test]
fn damaged_messages() {
    let (bases, mut random) = (messages(), Random::new(0xface));
    let mut counts = Counts::default();
    for _ in 0..INPUTS {
        let mut octets = bases[random.below(bases.len())].clone();
        random.damage(&mut octets);
        let library = verdict::message(&octets);
        check(&octets, &reading::message(&octets), library);
        counts.count(library);
    }
    counts.at_least(1_000, &[0, 4, 5, 6]);
}

/// Long inputs: 3 begins behind 1,024 and 2,048 octets.
#[test]
fn long_inputs() {
    for length in [1_023, 1_024, 1_025, 2_047, 2_048, 2_049, 5_000] {
        for first in [2, 3] {
            let octets = vec![first; length];
            let library = verdict::certificate(&octets);
            check(&octets, &reading::certificate(&octets), library);
            let library = verdict::message(&octets);
            check(&octets, &reading::message(&octets), library);
        }
    }
}

/// A store of filled slots, one to three bits of which are flipped.
#[test]
fn damaged_stores() {
    let mut random = Random::new(0xbeef);
    let mut counts = Counts::default();
    let mut root = slots::Slot::new(1, 0, 4, 100, 1_000);
    root.name = b"root".to_vec();
    root.rectangles = vec![[9, 1, 2, 8], [-2, -8, -9, -1]];
    let ticket = slots::Slot::new(2, 1, 1, 200, 262_777_739_970);
    let base = slots::store(&[root, ticket]);
    for _ in 0..3_000 {
        let mut store = base.clone();
        for _ in 0..=random.below(3) {
            // Mostly in the two filled slots, else anywhere.
            let octets = if random.one_in(5) { store.len() } else { 424 };
            store[random.below(octets)] ^= 1 << random.below(8);
        }
        let library = verdict::store(&store);
        let broken = first_broken(&store);
        assert_eq!(u8::from(broken.is_some()) * 2, library, "{broken:?}");
        assert!(broken.is_none_or(|broken| broken.offset() < store.len()));
        let expected = match library {
            0 => Ok(Slots::own_reading(&store)),
            _ => Err(Refusal::BadStore),
        };
        assert_eq!(Slots::of(&store), expected);
        counts.count(library);
    }
    counts.at_least(300, &[0, 2]);
}

/// Any values that the rules of a store allow.
fn random_slot(random: &mut Random, id: u8) -> slots::Slot {
    let kind = random.of(&[1, 2, 4]);
    let start = random.next() >> 32;
    let end = start + 1 + random.next() % (262_777_739_970 - start);
    let mut slot = slots::Slot::new(
        id,
        if kind == 4 { 0 } else { random.octet() },
        kind,
        start,
        end,
    );
    slot.state = random.of(&[1, 2]);
    slot.name = (0..random.below(33)).map(|_| random.octet()).collect();
    slot.parity = random.of(&[0, 1]);
    slot.key = std::array::from_fn(|_| random.octet());
    slot.rectangles = (0..random.below(5))
        .map(|_| random_rectangle(random))
        .collect();
    slot.permissions = (0..random.below(17)).map(|_| random.next() >> 36).collect();
    slot
}

fn random_rectangle(random: &mut Random) -> [i32; 4] {
    let south = random.below(900_000_000) as i32 - 900_000_000;
    let west = random.below(1_800_000_000) as i32 - 1_800_000_000;
    let [north, east] = [south, west].map(|edge| edge + 1 + random.below(900_000_000) as i32);
    [north, west, south, east]
}

fn record(slot: &slots::Slot) -> Record {
    let rectangle = |&[north, west, south, east]: &[i32; 4]| Rectangle {
        north,
        west,
        south,
        east,
    };
    Record {
        id: slot.id,
        issuer: slot.issuer,
        state: slot.state as u8,
        kind: slot.kind as u8,
        start: slot.start,
        end: slot.end,
        name_length: slot.name.len(),
        name: slot.name.clone(),
        key_type: 2 + slot.parity as u8,
        key: slot.key.to_vec(),
        rectangle_count: slot.rectangles.len(),
        rectangles: slot.rectangles.iter().map(rectangle).collect(),
        permission_count: slot.permissions.len(),
        permissions: slot.permissions.iter().map(|&p| p as u32).collect(),
    }
}

/// What was written to a slot is what the library tells of it, and what this tool
/// reads there.
#[test]
fn slots_as_they_were_written() {
    let mut random = Random::new(0x5107);
    for _ in 0..300 {
        let ids = 1..=random.below(65) as u8;
        let written: Vec<slots::Slot> = ids.map(|id| random_slot(&mut random, id)).collect();
        let store = slots::store(&written);
        let expected: Vec<(usize, Record)> = written.iter().map(record).enumerate().collect();
        for slots in [
            Slots::of(&store).expect("a valid store"),
            Slots::own_reading(&store),
        ] {
            assert_eq!(slots.count(), expected.len());
            assert_eq!(
                slots.first_empty(),
                (expected.len() < 64).then_some(expected.len())
            );
            for ((slot, found), (at, record)) in slots.iter().zip(&expected) {
                assert_eq!((slot, found), (*at, record));
            }
        }
    }
}

/// The edges of document 01's rules: the latest end, the poles, and edges and
/// times that must differ.
#[test]
fn edges_of_a_store() {
    let whole = [900_000_000, -1_800_000_000, -900_000_000, 1_800_000_000];
    let cases = [
        (0, 262_777_739_970, whole, 0),
        (0, 262_777_739_971, whole, 2),
        (299, 300, whole, 0),
        (300, 300, whole, 2),
        (0, 1, [900_000_001, 0, 0, 1], 2),
        (0, 1, [1, 0, -900_000_001, 1], 2),
        (0, 1, [1, -1_800_000_001, 0, 1], 2),
        (0, 1, [1, 0, 0, 1_800_000_001], 2),
        (0, 1, [1, 0, 1, 1], 2),
        (0, 1, [1, 1, 0, 1], 2),
        (0, 1, [1, 0, 0, 1], 0),
    ];
    for (start, end, rectangle, expected) in cases {
        let mut slot = slots::Slot::new(1, 2, 1, start, end);
        slot.rectangles = vec![rectangle];
        let store = slots::store(&[slot]);
        assert_eq!(verdict::store(&store), expected);
        assert_eq!(first_broken(&store).is_some(), expected == 2);
    }
}
