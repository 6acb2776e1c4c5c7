//! Prepare: the questions for the chip (document 01, "Order of checks").

mod common;

use common::chains::example;
use common::messages::*;
use common::stores::*;
use common::*;
use reference::constants::{
    BAD_CALL, BAD_STORE, CUT, NOT_PERMITTED, OUT_OF_DATE, TOO_LONG, UNKNOWN, WRONG_KIND,
};
use reference::{id, prepare, Call, Part, Prepared, Question};

/// The example, in which each certificate has a key of its own and every other the point type 3.
fn stored() -> Vec<Fields> {
    let mut stored = example();
    for (number, fields) in stored.iter_mut().enumerate() {
        fields.key = [0xa0 + number as u8; 32];
        fields.key[0] = 0x80;
        fields.key[31] = 0x01;
        fields.parity = number as u64 % 2;
    }
    stored
}

/// The key of that slot.
fn key(slot: u8) -> [u8; 32] {
    let mut key = [0xa0 + slot; 32];
    (key[0], key[31]) = (0x80, 0x01);
    key
}

fn call<'a>(store: &'a [u8], message: &'a [u8]) -> Call<'a> {
    Call {
        store,
        message,
        now: GENERATION,
        latitude: 0,
        longitude: 0,
        age: 0,
    }
}

fn prepare_with(stored: &[Fields], message: &[u8]) -> Result<Prepared, u8> {
    prepare(&call(&store_of(stored), message))
}

fn part(start: usize, length: usize) -> Part {
    Part { start, length }
}

#[test]
fn a_message_by_id() {
    let octets = by_id().octets();
    // Version, 1 + 21 octets of headers, 2 + 3 of payload, length and type of the trailer.
    assert_eq!(octets[28..31], [67, 1, 0]);
    assert_eq!(octets.len(), 30 + 66);
    let expected = Prepared {
        message: Question {
            signed: part(0, 30),
            point_type: 2,
            key: key(2),
            signature: part(30, 66),
        },
        certificate: Question {
            signed: part(0, 0),
            point_type: 0,
            key: [0; 32],
            signature: part(0, 0),
        },
    };
    assert_eq!(prepare_with(&stored(), &octets), Ok(expected));
}

/// The certificate begins behind version, length, header type and signer type.
#[test]
fn an_embedded_certificate() {
    let certificate = ticket().octets();
    let signed = certificate.len() - 66;
    let octets = embedding(&certificate).octets();
    let start = 1 + 2 + 2;
    assert_eq!(octets[start..][..certificate.len()], certificate);
    let prepared = prepare_with(&stored(), &octets).unwrap();
    assert_eq!(
        prepared.certificate,
        Question {
            signed: part(start, signed),
            // Of the issuer in slot 1.
            point_type: 3,
            key: key(1),
            signature: part(start + signed, 66),
        }
    );
    assert_eq!(
        prepared.message,
        Question {
            signed: part(0, octets.len() - 66),
            point_type: 2,
            key: [0x11; 32],
            signature: part(octets.len() - 66, 66),
        }
    );
}

#[test]
fn point_types_of_the_keys() {
    let mut draft = ticket();
    draft.attributes[2] = 3;
    let mut stored = stored();
    stored[1].parity = 0;
    let octets = embedding(&draft.octets()).octets();
    let prepared = prepare_with(&stored, &octets).unwrap();
    assert_eq!(prepared.message.point_type, 3);
    assert_eq!(prepared.certificate.point_type, 2);
    stored[2].parity = 1;
    let prepared = prepare_with(&stored, &by_id().octets()).unwrap();
    assert_eq!(prepared.message.point_type, 3);
}

/// The parts are the message's as sent: the point types of signatures change nothing.
#[test]
fn point_types_of_the_signatures() {
    let good = prepare_with(&stored(), &embedding(&ticket().octets()).octets());
    for point_type in [2, 3] {
        let mut certificate = ticket();
        certificate.signature = signature(point_type);
        let mut draft = embedding(&certificate.octets());
        draft.trailer[2] = point_type;
        assert_eq!(prepare_with(&stored(), &draft.octets()), good);
    }
}

/// An equal held copy changes nothing: the question has the stored issuer's key.
#[test]
fn an_equal_copy_is_stored() {
    let certificate = ticket().octets();
    let octets = embedding(&certificate).octets();
    let mut with_copy = stored();
    let mut copy = Fields::new(u64::from_be_bytes(id(&certificate).unwrap()));
    (copy.issuer, copy.kind) = (u64::from_be_bytes(ISSUER), 1);
    (copy.start, copy.end) = (200, 300);
    copy.key = [0x11; 32];
    with_copy.push(copy);
    let prepared = prepare_with(&with_copy, &octets);
    assert_eq!(prepared.unwrap().certificate.key, key(1));
    assert_eq!(prepared, prepare_with(&stored(), &octets));
}

/// "Refuses as decide with good verdicts."
#[test]
fn refusals() {
    let store = store_of(&stored());
    let octets = by_id().octets();
    let good = call(&store, &octets);
    assert!(prepare(&good).is_ok());
    let number = |call: Call| prepare(&call).unwrap_err();
    let store_length = Call {
        store: &store[1..],
        ..good
    };
    assert_eq!(number(store_length), BAD_CALL);
    let latitude = 900_000_001;
    assert_eq!(number(Call { latitude, ..good }), BAD_CALL);
    let longitude = -1_800_000_001;
    assert_eq!(number(Call { longitude, ..good }), BAD_CALL);
    let age = 600_000_001;
    assert_eq!(number(Call { age, ..good }), BAD_CALL);
    let bad = vec![0xff; 13_568];
    assert_eq!(number(call(&bad, &octets)), BAD_STORE);
    assert_eq!(number(call(&store, &[2; 2_049])), TOO_LONG);
    assert_eq!(number(call(&store, &octets[..95])), CUT);
    let now = GENERATION + 2_000_001;
    assert_eq!(number(Call { now, ..good }), OUT_OF_DATE);
    assert_eq!(number(call(&empty_store(), &octets)), UNKNOWN);
    let asked = message(&[
        signer_id(SIGNER),
        generation_time(GENERATION),
        common::messages::its_aid(37),
    ]);
    assert_eq!(number(call(&store, &asked.octets())), NOT_PERMITTED);
    let root = embedding(&root().octets()).octets();
    assert_eq!(number(call(&store, &root)), WRONG_KIND);
}
