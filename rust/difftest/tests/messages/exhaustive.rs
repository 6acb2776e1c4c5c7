//! Every proper prefix and every change of one octet, of accepted messages: all
//! 255 other values at every octet.

use std::collections::BTreeSet;

use difftest::compare::message::{decisions, questions};
use difftest::hex;
use difftest::judgements::{Judgement, Verdicts};
use difftest::message::scene::{Made, Scene};
use difftest::random::Random;
use difftest::sides::Side;

use crate::by_hand::{permission, scene, BOTH};
use crate::check::check;

const CUT: u8 = 4;

/// By id and with a certificate, with no header that may be absent and with
/// them all, with little in the certificate and with something of everything.
fn accepted() -> Vec<Made> {
    let mut messages = Vec::new();
    for carried in BOTH {
        for full in BOTH {
            let mut scene = scene(carried);
            if full {
                fill(&mut scene);
            } else {
                scene.chain.signer.encryption_key = None;
                scene.chain.signer.name.clear();
            }
            let made = first(&scene, full);
            assert_eq!(check(&made), Ok(0));
            messages.push(made);
        }
    }
    messages
}

fn fill(scene: &mut Scene) {
    scene.location = Some((1, -1));
    scene.times.expires_in = Some(1);
    let signer = &mut scene.chain.signer;
    signer.encryption_key = Some(signer.key.clone());
    signer.assurance = Some(3);
    signer.name = b"name".to_vec();
    signer.permissions = vec![permission(36), permission(128)];
    signer.region = Some(vec![[2, -2, -2, 2], [900_000_000, 100, 1, 200]]);
    for entry in &mut scene.chain.above {
        entry.permissions.push(128);
    }
}

/// The first message that has all headers, or none that may be absent; with few
/// digests and a short payload.
fn first(scene: &Scene, full: bool) -> Made {
    let made = |seed| scene.clone().made(Vec::new(), &mut Random::new(seed));
    let wanted = |made: &Made| {
        let message = &made.facts.message;
        let digests = message.digests.as_ref().map_or(0, Vec::len);
        message.deviation.is_some() == full
            && (digests == 2) == full
            && message.digests.is_some() == full
            && (1..20).contains(&message.payload.len())
    };
    (0..).map(made).find(wanted).expect("one of endlessly many")
}

/// The number on which library and reference agree, with every octet that they
/// write.
fn agreed(judgement: &Judgement) -> u8 {
    let prepared = judgement.prepare(Side::Library);
    let decided = judgement.decide(Side::Library, Verdicts::GOOD);
    let told = || hex::text(&judgement.message);
    let said = questions(&prepared, &judgement.prepare(Side::Reference));
    assert_eq!(said, None, "{}", told());
    let reference = judgement.decide(Side::Reference, Verdicts::GOOD);
    assert_eq!(decisions(&decided, &reference), None, "{}", told());
    assert_eq!(prepared.number, decided.number, "{}", told());
    decided.number
}

/// A proper prefix breaks off a field or a vector, and no fault stands before
/// the break.
#[test]
fn proper_prefixes() {
    for made in accepted() {
        for length in 0..made.judgement.message.len() {
            let mut judgement = made.judgement.clone();
            judgement.message.truncate(length);
            assert_eq!(agreed(&judgement), CUT, "{length} octets");
        }
    }
}

#[test]
fn changes_of_one_octet() {
    for made in accepted() {
        let mut judgement = made.judgement;
        let mut numbers = BTreeSet::new();
        for at in 0..judgement.message.len() {
            let before = judgement.message[at];
            for by in 1..=255 {
                judgement.message[at] = before ^ by;
                numbers.insert(agreed(&judgement));
            }
            judgement.message[at] = before;
        }
        let mut expected = BTreeSet::from([0, 4, 5, 6, 7, 11, 14]);
        // The period is in the message with the certificate, and the place with
        // the location.
        expected.extend(made.facts.certificate.map(|_| 12));
        expected.extend(made.facts.message.location.map(|_| 13));
        assert_eq!(numbers, expected, "{}", hex::text(&judgement.message));
    }
}
