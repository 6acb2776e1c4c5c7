//! The explanations against the library, on random stores and messages: they
//! arrive at the library's number, and at its list.

mod common;

use std::collections::BTreeMap;

use common::random::Random;
use common::slots::{store, Slot};
use inspect::explain::{self, Case};
use inspect::proved;
use inspect::{example, verdict};
use nattveldi::raw::Situation;

const CASES: usize = 2_000;

/// A few certificates whose ids, issuers, periods, regions and permissions are
/// drawn from a few values, so that chains form and break.
fn random_slots(random: &mut Random) -> Vec<Slot> {
    let count = 3 + random.below(8) as u8;
    (0..count).map(|index| random_slot(random, index)).collect()
}

/// Mostly issued by the one before it, so that long chains are met.
fn random_slot(random: &mut Random, index: u8) -> Slot {
    let is_root = index == 0 || random.one_in(12);
    let issuer = match (is_root, random.below(6)) {
        (true, _) => 0,
        (false, 0) => 1 + random.below(12) as u8,
        (false, _) => index,
    };
    let kind = match (is_root, random.below(4)) {
        (true, _) => 4,
        (false, 0) => 1,
        (false, _) => 2,
    };
    let mut slot = Slot::new(index + 1, issuer, kind, 100, 1_000);
    if random.one_in(10) {
        (slot.start, slot.end) = random.of(&[(0, 2_000), (200, 900), (240, 251), (251, 300)]);
    }
    if random.one_in(10) {
        slot.rectangles = vec![random.of(&[[90, 0, 0, 90], [50, 10, 10, 50], [9, 1, 2, 8]])];
    }
    if random.one_in(10) {
        slot.permissions = random.of(&[&[36, 37][..], &[37], &[], &[36, 36]]).to_vec();
    }
    if random.one_in(20) {
        slot.state = 2;
    }
    slot
}

/// A message by id of second 250.
fn by_id(random: &mut Random, id: u8) -> Vec<u8> {
    let time = 250_000_000_u64 + random.below(2_000_000) as u64;
    let mut headers = [&[128, 1][..], &[id; 8], &[0], &time.to_be_bytes()].concat();
    if random.one_in(4) {
        headers.extend([2, 0, 0, 0, 248 + random.below(8) as u8]);
    }
    if random.one_in(3) {
        let (latitude, longitude) = (random.below(60) as u8, random.below(60) as u8);
        headers.extend([3, 0, 0, 0, latitude, 0, 0, 0, longitude, 0, 0]);
    }
    headers.extend([5, random.of(&[36, 36, 36, 37])]);
    let head = vec![2, headers.len() as u8];
    [head, headers, vec![1, 2, b'h', b'i', 67, 1], vec![0; 66]].concat()
}

fn situation(random: &mut Random) -> Situation {
    Situation {
        now: 250_000_000 + random.below(3_000_000) as u64,
        latitude: random.of(&[20, 20, 20, 60, 900_000_001]),
        longitude: 20,
        age: random.of(&[0, 0, 1_000_000, 600_000_000, 600_000_000, 600_000_001]),
    }
}

/// Fails unless each number was met often enough.
fn met(counts: &BTreeMap<u8, usize>, numbers: &[u8], floor: usize) {
    for number in numbers {
        let met = counts.get(number).copied().unwrap_or(0);
        assert!(met >= floor, "{number} only {met} times: {counts:?}");
    }
}

#[test]
fn decisions_by_id() {
    let mut random = Random::new(0xdec1de);
    let mut counts = BTreeMap::new();
    for _ in 0..CASES {
        let mut slots = random_slots(&mut random);
        let signer = 1 + random.below(slots.len() + 1) as u8;
        if let (Some(slot), false) = (slots.get_mut(usize::from(signer) - 1), random.one_in(5)) {
            slot.kind = if slot.kind == 4 { 4 } else { 1 };
        }
        let message = by_id(&mut random, signer);
        let case = Case {
            store: &store(&slots),
            message: &message,
            situation: situation(&mut random),
            verdict: random.of(&[1, 1, 1, 0, 2]),
            certificate_verdict: 0,
        };
        *counts.entry(agrees(&case)).or_default() += 1;
    }
    met(&counts, &[0, 1, 7, 8, 10, 11, 12, 13, 14, 15], 10);
}

fn agrees(case: &Case) -> u8 {
    let (verdict, certificate_verdict) = (case.verdict, case.certificate_verdict);
    let (store, message) = (case.store, case.message);
    let answer = proved::decide(
        store,
        message,
        &case.situation,
        verdict,
        certificate_verdict,
    );
    let number = verdict::number(&answer);
    let explained = explain::decide(case);
    assert_eq!(explained.number, number, "{:#?}", explained.steps.lines);
    number
}

/// The example message with a certificate, and stores with its ticket, without
/// it, with one that differs, and with withdrawn ones.
#[test]
fn decisions_with_a_certificate() {
    let mut random = Random::new(0xce47);
    let mut counts = BTreeMap::new();
    let generated = inspect::text::time::parse_microseconds("2026-06-02T12:00:01Z").unwrap();
    let ids = [example::root(), example::authority(), example::ticket()];
    let ids = ids.map(|certificate| proved::id(&certificate).expect("an example reads"));
    for _ in 0..CASES {
        let mut store = example::store();
        if random.one_in(4) {
            proved::withdraw(&mut store, &random.of(&ids)).expect("it is held");
        }
        match random.below(7) {
            0 | 1 => store[2 * 212..3 * 212].fill(0), // the ticket is not stored
            2 => store[2 * 212 + random.below(212)] ^= 1 << random.below(8),
            3 => store[212..424].fill(0), // the ticket's issuer is not stored
            _ => (),
        }
        let mut message = example::with_certificate();
        if random.one_in(3) {
            random.damage(&mut message);
        }
        let now = generated + random.below(2_200_000) as u64;
        let case = Case {
            store: &store,
            message: &message,
            situation: Situation {
                now,
                ..Situation::default()
            },
            verdict: random.of(&[1, 1, 1, 0]),
            certificate_verdict: random.of(&[1, 1, 1, 0]),
        };
        *counts.entry(agrees(&case)).or_default() += 1;
    }
    met(&counts, &[0, 2, 4, 5, 6, 7, 8, 9, 14, 15], 5);
}

/// A message by id 99, of this time, with ITS-AID 36.
fn message_at(time: u64) -> Vec<u8> {
    let signer = [&[128, 1][..], &[99; 8]].concat();
    let headers = [&signer[..], &[0], &time.to_be_bytes(), &[5, 36]].concat();
    let head = vec![2, headers.len() as u8];
    [head, headers, vec![1, 0, 67, 1], vec![0; 66]].concat()
}

fn decided(slots: &[Slot], time: u64, now: u64) -> u8 {
    agrees(&Case {
        store: &store(slots),
        message: &message_at(time),
        situation: Situation {
            now,
            ..Situation::default()
        },
        verdict: 1,
        certificate_verdict: 0,
    })
}

/// Eight certificates reach a root, or it is 18: six authorities may stand
/// between it and the ticket.
#[test]
fn long_chains() {
    for (authorities, expected) in [(5, 0), (6, 0), (7, 18), (9, 18)] {
        let mut slots = vec![Slot::new(1, 0, 4, 100, 1_000)];
        slots.extend((1..=authorities).map(|i| Slot::new(i + 1, i, 2, 100, 1_000)));
        slots.push(Slot::new(99, authorities + 1, 1, 100, 1_000));
        assert_eq!(decided(&slots, 250_000_000, 250_000_000), expected);
    }
}

/// Document 01: with a period of 200 to 300, 299 is in and 300 out; at now
/// 10,000,000 and age 0, 8,000,000 and 12,000,000 pass.
#[test]
fn worked_numbers() {
    let pair = |start, end| {
        [
            Slot::new(1, 0, 4, 0, 1_000),
            Slot::new(99, 1, 1, start, end),
        ]
    };
    for (second, expected) in [(199, 12), (200, 0), (299, 0), (300, 12)] {
        let time = 1_000_000 * second;
        assert_eq!(decided(&pair(200, 300), time, time), expected);
    }
    let times = [
        (7_999_999, 14),
        (8_000_000, 0),
        (12_000_000, 0),
        (12_000_001, 14),
    ];
    for (time, expected) in times {
        assert_eq!(decided(&pair(0, 900), time, 10_000_000), expected);
    }
}

#[test]
fn lists() {
    let mut random = Random::new(0x115f);
    let (mut counts, mut fallen) = (BTreeMap::new(), 0);
    for _ in 0..CASES {
        let slots = random_slots(&mut random);
        let octets = store(&slots);
        let id = [1 + random.below(slots.len() + 1) as u8; 8];
        let second = random.of(&[99, 220, 250, 251, 999]);
        let answer = proved::list(&octets, &id, second);
        let own = explain::list(&octets, &id, second);
        assert_eq!(own.explanation.number, verdict::number(&answer));
        *counts.entry(own.explanation.number).or_default() += 1;
        let listed = answer.unwrap_or_default();
        assert_eq!(own.slots, listed, "{id:?} at {second} in {slots:#?}");
        // Nor does the own walk find another certificate standing than the library.
        let lines = format!("{:#?}", own.explanation.steps.lines);
        assert!(!lines.contains("DOES NOT FIT"), "{lines}");
        fallen += listed.len();
    }
    met(&counts, &[0, 7, 8], 50);
    assert!(fallen > 500, "{fallen}");
}

/// Certificates below a root or an authority whose limits differ a little.
#[test]
fn admissions() {
    let mut random = Random::new(0xad317);
    let mut counts = BTreeMap::new();
    for _ in 0..CASES {
        let mut slots = random_slots(&mut random);
        if random.one_in(20) {
            slots = (1..=64).map(|id| Slot::new(id, 0, 4, 100, 1_000)).collect();
            slots.iter_mut().for_each(|slot| slot.issuer = [0; 8]);
        }
        let octets = store(&slots);
        let certificate = random_certificate(&mut random, slots.len());
        let verdict = random.of(&[1, 1, 1, 1, 0]);
        let wants_root = random.one_in(3);
        let (answer, own) = if wants_root {
            let answer = proved::install(&mut octets.clone(), &certificate, verdict);
            (answer, explain::install(&octets, &certificate, verdict))
        } else {
            let answer = proved::admit(&mut octets.clone(), &certificate, verdict);
            (answer, explain::admit(&octets, &certificate, verdict))
        };
        let number = verdict::number(&answer);
        assert_eq!(own.number, number, "{:#?}", own.steps.lines);
        *counts.entry(number).or_default() += 1;
    }
    met(&counts, &[0, 5, 7, 8, 10, 11, 12, 13, 15, 16], 10);
}

fn random_certificate(random: &mut Random, slots: usize) -> Vec<u8> {
    let kind = random.of(&[1, 2, 4]);
    let signer = match kind {
        4 => vec![0],
        _ => [vec![1], vec![1 + random.below(slots + 1) as u8; 8]].concat(),
    };
    let permissions = match (kind, random.one_in(4)) {
        (1, false) => vec![33, 2, 36, 0],
        (1, true) => vec![33, 4, 36, 0, 37, 0],
        (_, false) => vec![32, 1, 36],
        (_, true) => vec![32, 1, 37],
    };
    let attributes = [vec![0, 0, 2], vec![7; 32], permissions].concat();
    let (start, end) = random.of(&[(100, 200), (100, 200), (150, 240), (99, 200), (9, 9)]);
    let mut restrictions = vec![1, 0, 0, 0, start, 0, 0, 0, end];
    if random.one_in(2) {
        let rectangle = [0, 0, 0, 40, 0, 0, 0, 12, 0, 0, 0, 12, 0, 0, 0, 40];
        restrictions.extend([3, 2, 16]);
        restrictions.extend(rectangle);
    }
    let lengths = [attributes.len() as u8, restrictions.len() as u8];
    let head = [vec![2], signer, vec![kind, 0, lengths[0]]].concat();
    [
        head,
        attributes,
        vec![lengths[1]],
        restrictions,
        vec![0; 66],
    ]
    .concat()
}
