//! Decide a message that embeds its signer's certificate (document 01, "Order of checks").

mod common;

use common::chains::{eight_times, example};
use common::messages::*;
use common::stores::*;
use common::*;
use reference::constants::{
    NOT_PERMITTED, OTHER_CERTIFICATE, OUTSIDE_PERIOD, OUTSIDE_PLACE, SIGNATURE, UNKNOWN, WITHDRAWN,
    WRONG_KIND,
};
use reference::{decide, id, Call, Decision};

fn decide_with(
    stored: &[Fields],
    message: &MessageDraft,
    verdicts: (u8, u8),
) -> Result<Decision, u8> {
    let call = Call {
        store: &store_of(stored),
        message: &message.octets(),
        now: GENERATION,
        latitude: 0,
        longitude: 0,
        age: 0,
    };
    decide(&call, verdicts.0, verdicts.1)
}

/// With good verdicts.
fn number_with(stored: &[Fields], message: &MessageDraft) -> u8 {
    decide_with(stored, message, (1, 1)).err().unwrap_or(0)
}

/// Everything a slot has, in use: the example's authority 02.. allows it.
fn full_ticket() -> Draft {
    let mut draft = ticket();
    draft.head = [vec![2, 1], ISSUER.to_vec(), vec![1, 2, 0x54, 0x31]].concat();
    draft.attributes = [verification_key(), its_aid_ssp_list(&[36, 0, 35, 1, 7])].concat();
    let area = [rectangle(10, -10, -10, 10), rectangle(30, 1, -30, 2)].concat();
    draft.restrictions.extend(rectangles(&area));
    draft
}

/// The slot that holds it.
fn full_slot() -> Fields {
    let id = id(&full_ticket().octets()).unwrap();
    let mut fields = Fields::new(u64::from_be_bytes(id));
    fields.issuer = u64::from_be_bytes(ISSUER);
    fields.kind = 1;
    (fields.start, fields.end) = (200, 300);
    fields.name_length = 2;
    fields.name[..2].copy_from_slice(b"T1");
    fields.key = [0x11; 32];
    fields.rectangle_count = 2;
    fields.rectangles[0] = [10, -10, -10, 10];
    fields.rectangles[1] = [30, 1, -30, 2];
    fields.permission_count = 2;
    fields.permissions[1] = 35;
    fields
}

/// The example's root 01.. and authority 02.., both with permissions 36 and 35.
fn issuers() -> Vec<Fields> {
    let mut stored = example()[..2].to_vec();
    for fields in &mut stored {
        fields.permission_count = 2;
        fields.permissions[1] = 35;
    }
    stored
}

fn issuers_and(fields: Fields) -> Vec<Fields> {
    [issuers(), vec![fields]].concat()
}

#[test]
fn an_accepted_message() {
    let certificate = ticket().octets();
    let draft = embedding(&certificate);
    let decision = decide_with(&example()[..2], &draft, (1, 1)).unwrap();
    assert_eq!(decision.signer, id(&certificate).unwrap());
    // SHA-256 of the 130 octets ends so, by another program.
    assert_eq!(u64::from_be_bytes(decision.signer), 0x0987_b425_3cb4_49b3);
    assert_eq!(decision.permission, 36);
    assert_eq!(decision.generation_time, GENERATION);
    let octets = draft.octets();
    let payload = decision.payload;
    assert_eq!(
        payload.start,
        octets.len() - draft.trailer.len() - 1 - b"pay".len()
    );
    assert_eq!(payload.length, 3);
    assert_eq!(&octets[payload.start..payload.start + 3], b"pay");
}

/// "With the signature's point type taken as 0": the id of one certificate is one.
#[test]
fn the_id_does_not_depend_on_the_point_type() {
    let stored = example();
    let mut draft = ticket();
    let signers = [0, 2, 3].map(|point_type| {
        draft.signature = signature(point_type);
        let message = embedding(&draft.octets());
        decide_with(&stored, &message, (1, 1)).unwrap().signer
    });
    let expected = id(&ticket().octets()).unwrap();
    assert_eq!(signers, [expected; 3]);
}

/// The same signer wherever the certificate stands, and whatever follows it.
#[test]
fn the_id_is_over_the_certificates_own_octets() {
    let certificate = ticket().octets();
    let mut headers = vec![signer_certificate(&certificate)];
    headers.extend(all_headers());
    let mut draft = message(&headers);
    draft.payload = vec![0x5a; 1_000];
    let decision = decide_with(&example(), &draft, (1, 1)).unwrap();
    assert_eq!(decision.signer, id(&certificate).unwrap());
}

#[test]
fn both_verdicts_must_be_one() {
    let message = embedding(&ticket().octets());
    for octet in 0..=255 {
        let expected = if octet == 1 { Ok(()) } else { Err(SIGNATURE) };
        let answer = |verdicts| decide_with(&example(), &message, verdicts).map(|_| ());
        assert_eq!(answer((octet, 1)), expected);
        assert_eq!(answer((1, octet)), expected);
    }
    let answer = decide_with(&example(), &message, (0, 0));
    assert_eq!(answer, Err(SIGNATURE));
}

/// An equal held copy changes nothing: the certificate's verdict is still asked.
#[test]
fn an_equal_copy_is_stored() {
    let message = embedding(&full_ticket().octets());
    for stored in [issuers(), issuers_and(full_slot())] {
        assert!(decide_with(&stored, &message, (1, 1)).is_ok());
        assert_eq!(decide_with(&stored, &message, (1, 0)), Err(SIGNATURE));
        assert_eq!(decide_with(&stored, &message, (0, 1)), Err(SIGNATURE));
    }
}

#[test]
fn a_withdrawn_copy_is_stored() {
    let message = embedding(&full_ticket().octets());
    let mut copy = full_slot();
    copy.state = 2;
    assert_eq!(number_with(&issuers_and(copy.clone()), &message), WITHDRAWN);
    // Withdrawn and different is withdrawn.
    copy.start += 1;
    assert_eq!(number_with(&issuers_and(copy), &message), WITHDRAWN);
}

/// "Stored record otherwise different 9": every field of the slot but the state.
#[test]
fn another_certificate_is_stored() {
    let message = embedding(&full_ticket().octets());
    for change in [
        |copy: &mut Fields| copy.issuer = 0,
        |copy: &mut Fields| copy.kind = 2,
        |copy: &mut Fields| (copy.kind, copy.issuer) = (4, 0),
        |copy: &mut Fields| copy.start += 1,
        |copy: &mut Fields| copy.end += 1,
        |copy: &mut Fields| copy.end += 1 << 37,
        |copy: &mut Fields| (copy.name_length, copy.name[1]) = (1, 0),
        |copy: &mut Fields| copy.name_length = 3,
        |copy: &mut Fields| copy.name[0] = 0x74,
        |copy: &mut Fields| copy.parity = 1,
        |copy: &mut Fields| copy.key[0] = 0x10,
        |copy: &mut Fields| copy.key[31] = 0x10,
        |copy: &mut Fields| (copy.rectangle_count, copy.rectangles[1]) = (1, [0; 4]),
        |copy: &mut Fields| copy.rectangles[0][0] = 11,
        |copy: &mut Fields| copy.rectangles[1][3] = 3,
        |copy: &mut Fields| copy.rectangles.swap(0, 1),
        |copy: &mut Fields| (copy.permission_count, copy.permissions[1]) = (1, 0),
        |copy: &mut Fields| (copy.permission_count, copy.permissions[2]) = (3, 36),
        |copy: &mut Fields| copy.permission_count = 3,
        |copy: &mut Fields| copy.permissions[1] = 37,
        |copy: &mut Fields| copy.permissions.swap(0, 1),
    ] {
        let mut copy = full_slot();
        change(&mut copy);
        assert_eq!(number_with(&issuers_and(copy), &message), OTHER_CERTIFICATE);
    }
}

/// What a slot does not keep makes no difference.
#[test]
fn what_is_not_stored_is_not_compared() {
    let mut draft = full_ticket();
    draft.attributes = [
        verification_key(),
        encryption_key(),
        vec![2, 9],
        its_aid_ssp_list(&[36, 2, 8, 8, 35, 0]),
    ]
    .concat();
    let octets = draft.octets();
    let mut copy = full_slot();
    copy.id = u64::from_be_bytes(id(&octets).unwrap());
    assert_eq!(number_with(&issuers_and(copy), &embedding(&octets)), 0);
}

#[test]
fn signers_of_another_kind() {
    for draft in [authority(), root()] {
        let message = embedding(&draft.octets());
        assert_eq!(number_with(&example(), &message), WRONG_KIND);
    }
    // "Stored but withdrawn 8" and "otherwise different 9" come before the walk.
    let octets = authority().octets();
    let mut copy = Fields::new(u64::from_be_bytes(id(&octets).unwrap()));
    let message = embedding(&octets);
    let stored = issuers_and(copy.clone());
    assert_eq!(number_with(&stored, &message), OTHER_CERTIFICATE);
    copy.state = 2;
    assert_eq!(number_with(&issuers_and(copy), &message), WITHDRAWN);
}

#[test]
fn refusals_of_the_walk() {
    let answer = |draft: &Draft| number_with(&example(), &embedding(&draft.octets()));
    assert_eq!(answer(&ticket()), 0);
    let mut draft = ticket();
    draft.head[2..10].fill(9);
    assert_eq!(answer(&draft), UNKNOWN);
    // Issued by ticket 03...
    draft.head[2..10].fill(3);
    assert_eq!(answer(&draft), WRONG_KIND);
    draft = ticket();
    draft.attributes = [verification_key(), its_aid_ssp_list(&[36, 0, 35, 0])].concat();
    assert_eq!(answer(&draft), NOT_PERMITTED);
    draft = ticket();
    draft.restrictions = vec![1, 0, 0, 0, 200, 0, 0, 0, 250];
    assert_eq!(answer(&draft), OUTSIDE_PERIOD);
    // Period 99 to 300, of which the issuer has 100 on.
    draft.restrictions = vec![1, 0, 0, 0, 99, 0, 0, 1, 44];
    assert_eq!(answer(&draft), OUTSIDE_PERIOD);
    draft = ticket();
    draft
        .restrictions
        .extend(rectangles(&rectangle(9, 1, 1, 9)));
    assert_eq!(answer(&draft), OUTSIDE_PLACE);
    let mut stored = example();
    stored[1].state = 2;
    let message = embedding(&ticket().octets());
    assert_eq!(number_with(&stored, &message), WITHDRAWN);
}

#[test]
fn permissions() {
    let answer = |permissions: &[u8], asked| {
        let mut draft = ticket();
        draft.attributes = [verification_key(), its_aid_ssp_list(permissions)].concat();
        let headers = [
            signer_certificate(&draft.octets()),
            generation_time(GENERATION),
            its_aid(asked),
        ];
        number_with(&example(), &message(&headers))
    };
    assert_eq!(answer(&[36, 0], 36), 0);
    assert_eq!(answer(&[36, 0], 37), NOT_PERMITTED);
    // An SSP is no permission, and unused room neither.
    assert_eq!(answer(&[36, 1, 37], 37), NOT_PERMITTED);
    assert_eq!(answer(&[36, 0], 0), NOT_PERMITTED);
    assert_eq!(answer(&[], 0), NOT_PERMITTED);
}

/// A copy under the id of another certificate is not looked at.
#[test]
fn the_copy_is_found_by_id() {
    let mut copy = full_slot();
    copy.id = eight_times(0x77);
    copy.start += 1;
    let message = embedding(&full_ticket().octets());
    assert_eq!(number_with(&issuers_and(copy), &message), 0);
}
