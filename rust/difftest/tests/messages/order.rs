//! Two things are wrong with a message: what comes first in "Order of checks"
//! is the answer.

use difftest::entry::{HELD, WITHDRAWN};
use difftest::message::scene::Scene;
use difftest::plan::{Period, AUTHORITY, TICKET};

use crate::by_hand::{number, scene};

type Wrong = (u8, &'static str, fn(&mut Scene));

const CALL_AND_READING: [Wrong; 7] = [
    (1, "store length", |scene| {
        scene
            .octet_breaks
            .push(|made, _| made.judgement.store.push(0))
    }),
    (1, "position", |scene| scene.own = (900_000_001, 0)),
    (1, "age", |scene| scene.times.age = 600_000_001),
    (2, "store", |scene| {
        scene.octet_breaks.push(|made, _| {
            made.judgement.store[211] |= 1;
            made.facts.contents = Some(Err(2));
        })
    }),
    (3, "too long", |scene| {
        scene
            .octet_breaks
            .push(|made, _| made.judgement.message.resize(2_049, 0))
    }),
    (6, "version", |scene| {
        scene.octet_breaks.push(|made, _| {
            made.judgement.message[0] = 3;
            made.facts.reading = Some(Err(6));
        })
    }),
    (14, "stale", |scene| scene.times.delay = 2_000_001),
];

const BY_ID: [Wrong; 3] = [
    (7, "signer not stored", |scene| scene.stored = None),
    (10, "signer's kind", |scene| {
        scene.chain.signer.kind = AUTHORITY
    }),
    (8, "signer withdrawn", |scene| {
        scene.stored = scene.stored.and(Some(WITHDRAWN))
    }),
];

const EMBEDDED: [Wrong; 3] = [
    (8, "copy withdrawn", |scene| scene.stored = Some(WITHDRAWN)),
    (9, "copy different", |scene| {
        scene.stored = scene.stored.or(Some(HELD));
        scene.differences.push(|entry, _| entry.parity ^= 1);
    }),
    (10, "signer's kind", |scene| {
        scene.chain.signer.kind = AUTHORITY
    }),
];

const WALK: [Wrong; 11] = [
    (12, "second", |scene| {
        scene.chain.signer.period = Period::StartAndEnd(600, 700)
    }),
    (13, "place", |scene| {
        scene.chain.signer.region = Some(vec![[9, 8, 7, 9]])
    }),
    (7, "issuer not stored", |scene| {
        scene.chain.above[1].id = [0xee; 8]
    }),
    (10, "issuer's kind", |scene| {
        scene.chain.above[1].kind = TICKET
    }),
    (11, "issuer's permissions", |scene| {
        scene.chain.above[1].permissions = vec![37]
    }),
    (12, "issuer's period", |scene| {
        scene.chain.above[1].end = 650
    }),
    (13, "issuer's region", |scene| {
        scene.chain.above[1].rectangles = vec![[8, 7, 6, 9]]
    }),
    (8, "issuer withdrawn", |scene| {
        scene.chain.above[1].state = WITHDRAWN
    }),
    (7, "no root", |scene| drop(scene.chain.above.remove(0))),
    (11, "its_aid", |scene| scene.its_aid = 37),
    (15, "verdict", |scene| scene.verdicts.message = 0),
];

fn check(carried: bool, order: &[Wrong]) {
    assert_eq!(number(scene(carried)), 0);
    for (i, (first, name, wrong)) in order.iter().enumerate() {
        let mut alone = scene(carried);
        wrong(&mut alone);
        assert_eq!(number(alone), *first, "{name}");
        for (_, other_name, other) in &order[i + 1..] {
            let mut both = scene(carried);
            wrong(&mut both);
            other(&mut both);
            assert_eq!(number(both), *first, "{name}, then {other_name}");
        }
    }
}

#[test]
fn by_id() {
    check(false, &[&CALL_AND_READING[..], &BY_ID, &WALK].concat());
}

#[test]
fn with_a_certificate() {
    let verdict: Wrong = (15, "verdict on the certificate", |scene| {
        scene.verdicts.certificate = 0
    });
    let order = [&CALL_AND_READING[..], &EMBEDDED, &WALK, &[verdict]];
    check(true, &order.concat());
}
