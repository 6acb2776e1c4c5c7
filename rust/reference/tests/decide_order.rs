//! Every set of faults at once: the first in the paper's order is the answer of decide, and of
//! prepare but for the verdicts (document 01, "Order of checks"; open points 26 and 29).

mod common;

use common::messages::*;
use common::sets::{first, sets};
use common::stores::*;
use common::{authority, its_aid_ssp_list, ticket, verification_key, ISSUER};
use reference::{decide, id, prepare, Call};

#[derive(Clone, Copy, PartialEq)]
enum Fault {
    StoreLength,
    OwnPosition,
    Age,
    BadStore,
    TooLong,
    LeftOver,
    OutOfDate,
    StoredWithdrawn,
    StoredDifferent,
    SignerUnknown,
    Kind,
    Withdrawn,
    Second,
    Position,
    IssuerUnknown,
    ItsAid,
    CertificateVerdict,
    Verdict,
}

/// The faults of a message by id in the order of checks, with their answers.
const BY_ID: [(Fault, u8); 15] = [
    (Fault::StoreLength, 1),
    (Fault::OwnPosition, 1),
    (Fault::Age, 1),
    (Fault::BadStore, 2),
    (Fault::TooLong, 3),
    (Fault::LeftOver, 5),
    (Fault::OutOfDate, 14),
    (Fault::SignerUnknown, 7),
    (Fault::Kind, 10),
    (Fault::Withdrawn, 8),
    (Fault::Second, 12),
    (Fault::Position, 13),
    (Fault::IssuerUnknown, 7),
    (Fault::ItsAid, 11),
    (Fault::Verdict, 15),
];

/// The same of a message with its signer's certificate.
const EMBEDDED: [(Fault, u8); 15] = [
    (Fault::StoreLength, 1),
    (Fault::Age, 1),
    (Fault::BadStore, 2),
    (Fault::TooLong, 3),
    (Fault::LeftOver, 5),
    (Fault::OutOfDate, 14),
    (Fault::StoredWithdrawn, 8),
    (Fault::StoredDifferent, 9),
    (Fault::Kind, 10),
    (Fault::Second, 12),
    (Fault::Position, 13),
    (Fault::IssuerUnknown, 7),
    (Fault::ItsAid, 11),
    (Fault::CertificateVerdict, 15),
    (Fault::Verdict, 15),
];

/// The drafts' certificate: a ticket, or an authority of the same contents.
fn certificate(faults: &[Fault]) -> Vec<u8> {
    let mut draft = ticket();
    draft.attributes = [verification_key(), its_aid_ssp_list(&[36, 0])].concat();
    if faults.contains(&Fault::Kind) {
        (draft.head, draft.attributes) = (authority().head, authority().attributes);
    }
    let area = common::rectangle(10, -10, -10, 10);
    draft.restrictions.extend(common::rectangles(&area));
    draft.octets()
}

/// Second 250, or 350 behind the signer's period; a place inside the signer's region or outside.
fn message_octets(signer: Vec<u8>, faults: &[Fault]) -> Vec<u8> {
    let has = |fault| faults.contains(&fault);
    let mut octets = message(&[
        signer,
        generation_time(generation(faults)),
        location(if has(Fault::Position) { 11 } else { 10 }, 0),
        its_aid(if has(Fault::ItsAid) { 37 } else { 36 }),
    ])
    .octets();
    if has(Fault::LeftOver) {
        octets.push(0);
    }
    if has(Fault::TooLong) {
        octets.resize(2_049, 0);
    }
    octets
}

fn generation(faults: &[Fault]) -> u64 {
    if faults.contains(&Fault::Second) {
        return 350_000_000;
    }
    GENERATION
}

/// The signer by id, 200 to 300, in the region of the drafts' certificate.
fn stored_signer(faults: &[Fault]) -> Fields {
    let mut signer = common::chains::ticket(
        u64::from_be_bytes(SIGNER),
        u64::from_be_bytes(ISSUER),
        200,
        300,
    );
    (signer.rectangle_count, signer.rectangles[0]) = (1, [10, -10, -10, 10]);
    for fault in faults {
        match fault {
            Fault::SignerUnknown => signer.id += 1,
            Fault::Kind => signer.kind = 2,
            Fault::Withdrawn => signer.state = 2,
            _ => {}
        }
    }
    signer
}

/// A copy of the embedded certificate, held and equal but for the faults.
fn copy(octets: &[u8], faults: &[Fault]) -> Fields {
    let mut copy = stored_signer(&[]);
    copy.id = u64::from_be_bytes(id(octets).unwrap());
    copy.key = [0x11; 32];
    if faults.contains(&Fault::Kind) {
        copy.kind = 2;
        copy.name_length = 2;
        copy.name[..2].copy_from_slice(b"B1");
    }
    if faults.contains(&Fault::StoredDifferent) {
        copy.permissions[0] = 35;
    }
    if faults.contains(&Fault::StoredWithdrawn) {
        copy.state = 2;
    }
    copy
}

/// Root 01.., authority 02.. and the signer or its copy.
fn store(third: Fields, faults: &[Fault]) -> Vec<u8> {
    let mut stored = common::chains::example()[..2].to_vec();
    if faults.contains(&Fault::IssuerUnknown) {
        stored[1].id += 1;
    }
    stored.push(third);
    let mut store = store_of(&stored);
    if faults.contains(&Fault::BadStore) {
        flip(&mut store, 8 * 212 * 30 - 1);
    }
    if faults.contains(&Fault::StoreLength) {
        store.pop();
    }
    store
}

/// Asserts the answers of decide and prepare.
fn assert_answers(store: &[u8], message: &[u8], faults: &[Fault], answers: &[u8]) {
    let choose = |fault, bad, good| if faults.contains(&fault) { bad } else { good };
    let call = Call {
        store,
        message,
        now: generation(faults) + choose(Fault::OutOfDate, 2_000_001, 2_000_000),
        latitude: choose(Fault::OwnPosition, 900_000_001, 0) as i32,
        longitude: 0,
        age: choose(Fault::Age, 600_000_001, 0),
    };
    let verdict = choose(Fault::Verdict, 0, 1) as u8;
    let certificate_verdict = choose(Fault::CertificateVerdict, 2, 1) as u8;
    let decided = decide(&call, verdict, certificate_verdict);
    let expected = first(answers);
    assert_eq!(decided.err().unwrap_or(0), expected, "{answers:?}");
    let prepared = prepare(&call).err().unwrap_or(0);
    let expected = if expected == 15 { 0 } else { expected };
    assert_eq!(prepared, expected, "{answers:?}");
}

#[test]
fn by_id_faults() {
    let mut tried = 0;
    for (faults, answers) in sets(&BY_ID) {
        let store = store(stored_signer(&faults), &faults);
        let message = message_octets(signer_id(SIGNER), &faults);
        assert_answers(&store, &message, &faults, &answers);
        tried += 1;
    }
    assert_eq!(tried, 32_768);
}

#[test]
fn embedded_faults() {
    let mut tried = 0;
    for (faults, answers) in sets(&EMBEDDED) {
        let certificate = certificate(&faults);
        let store = store(copy(&certificate, &faults), &faults);
        let message = message_octets(signer_certificate(&certificate), &faults);
        assert_answers(&store, &message, &faults, &answers);
        tried += 1;
    }
    assert_eq!(tried, 32_768);
}
