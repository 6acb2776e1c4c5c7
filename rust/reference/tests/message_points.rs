//! The points that document 01 leaves open of messages, by their number in the team's list, as
//! settled. A message that reads is then refused for its unknown signer, as the store is empty.

mod common;

use common::messages::*;
use common::*;
use reference::constants::{CUT, MALFORMED, UNSUPPORTED};

/// A message whose header vector ends before `tail` begins.
fn with_tail(headers: &[Vec<u8>], tail: &[u8]) -> u8 {
    let head = [vec![2], vector(&headers.concat())].concat();
    message_number(&[&head, tail].concat())
}

/// The headers of the drafts, each without one that is required.
fn incomplete() -> [Vec<Vec<u8>>; 5] {
    let [signer, time] = [signer_id(SIGNER), generation_time(GENERATION)];
    let deviation = time_with_deviation(GENERATION);
    [
        vec![],
        vec![signer.clone()],
        vec![signer.clone(), time],
        vec![signer.clone(), its_aid(36)],
        vec![signer, deviation, its_aid(36)],
    ]
}

#[test]
fn point_6_a_certificate_ends_with_its_signature() {
    let signer = signer_certificate(&ticket().octets());
    let with_next = |next: &[u8]| message(&[signer.clone(), next.to_vec()]).number();
    let rest = [generation_time(GENERATION), its_aid(36)].concat();
    assert_eq!(with_next(&rest), READS);
    // The next octet is a header's type, not left over.
    assert_eq!(with_next(&[&[7], &rest[..]].concat()), UNSUPPORTED);
    assert_eq!(with_next(&[&[128], &rest[..]].concat()), MALFORMED);
    assert_eq!(with_next(&rest[..5]), CUT);
    assert_eq!(with_next(&[]), MALFORMED);
}

/// A certificate over 1,024 octets is refused for what makes it so long, never with 3.
#[test]
fn point_6_long_certificates() {
    let mut draft = ticket();
    let permissions = [vec![36, 31], vec![0x55; 31]].concat();
    draft.attributes = [
        verification_key(),
        encryption_key(),
        vec![2, 7],
        its_aid_ssp_list(&permissions.repeat(16)),
    ]
    .concat();
    assert_eq!(embedding(&draft.octets()).number(), READS);
    draft.attributes = [
        verification_key(),
        its_aid_ssp_list(&permissions.repeat(32)),
    ]
    .concat();
    assert!(draft.octets().len() > 1_024);
    assert_eq!(embedding(&draft.octets()).number(), UNSUPPORTED);
}

#[test]
fn point_7_a_missing_header_counts_at_the_vectors_end() {
    for headers in incomplete() {
        let draft = message(&headers);
        assert_eq!(draft.number(), MALFORMED);
        for payload_type in [0, 2, 3, 4, 255] {
            let mut draft = draft.clone();
            draft.payload_type = payload_type;
            assert_eq!(draft.number(), UNSUPPORTED);
        }
        assert_eq!(with_tail(&headers, &[]), CUT);
        assert_eq!(with_tail(&headers, &[0]), UNSUPPORTED);
        assert_eq!(with_tail(&headers, &[255]), UNSUPPORTED);
    }
    assert_eq!(message_number(&[2, 0]), CUT);
}

#[test]
fn point_7_faults_one_octet_further_on_do_not_win() {
    for headers in incomplete() {
        assert_eq!(with_tail(&headers, &[1]), MALFORMED);
        assert_eq!(with_tail(&headers, &[1, 0xf0]), MALFORMED);
        assert_eq!(with_tail(&headers, &[1, 9]), MALFORMED);
        assert_eq!(with_tail(&headers, &[1, 0, 0xf0]), MALFORMED);
    }
}

/// A fault inside the vector is earlier than what the vector lacks.
#[test]
fn point_7_faults_inside_the_vector_come_first() {
    let headers = [signer_id(SIGNER), vec![7]];
    assert_eq!(with_tail(&headers, &[0]), UNSUPPORTED);
    let headers = [signer_id(SIGNER), location(900_000_001, 0)];
    assert_eq!(with_tail(&headers, &[0]), MALFORMED);
    let headers = [signer_id(SIGNER), digests(&[1])];
    assert_eq!(with_tail(&headers, &[0]), CUT);
    // An embedded certificate without a period, at its signature.
    let mut draft = ticket();
    draft.restrictions.clear();
    let headers = [signer_certificate(&draft.octets())];
    assert_eq!(with_tail(&headers, &[0]), MALFORMED);
}

#[test]
fn point_8_a_vector_past_its_container_is_cut_at_its_length() {
    // A header vector past the message, before the first header out of order.
    assert_eq!(message_number(&[2, 3, 0, 0]), CUT);
    // Digests past the header vector, before they are no multiple of 3.
    let headers = [signer_id(SIGNER), vec![4, 4, 1, 1, 1]];
    assert_eq!(message(&headers).number(), CUT);
    // The certificate's attribute vector past the header vector, before the fault inside it.
    let certificate = [vec![2, 0, 4, 0, 5], vec![0xff; 4]].concat();
    let headers = [signer_certificate(&certificate)];
    assert_eq!(message(&headers).number(), CUT);
}

#[test]
fn point_9_a_length_goes_by_the_reading_order_of_int_x() {
    assert_eq!(message_number(&[2, 0xf0]), UNSUPPORTED);
    assert_eq!(message_number(&[2, 0x80, 0x7f]), MALFORMED);
    assert_eq!(message_number(&[2, 0xc0, 0x40]), CUT);
    assert_eq!(message_number(&[2, 0xc0, 0x40, 0]), CUT);
    let headers = [signer_id(SIGNER), generation_time(GENERATION), vec![5]];
    let its_aid = |its_aid: &[u8]| message(&[headers.concat(), its_aid.to_vec()]).number();
    // The further octet is the vector's, not the payload's.
    assert_eq!(its_aid(&[0x80]), CUT);
    assert_eq!(its_aid(&[0xf0]), UNSUPPORTED);
    assert_eq!(its_aid(&[0x80, 0x7f]), MALFORMED);
}

#[test]
fn point_11_digests_that_are_no_multiple_of_three() {
    for length in [1, 2, 4, 5, 31, 32] {
        let headers = [
            signer_id(SIGNER),
            generation_time(GENERATION),
            digests(&vec![1; length]),
            // Behind the cut digest.
            vec![7],
        ];
        assert_eq!(message(&headers).number(), CUT, "{length}");
    }
}

#[test]
fn point_13_an_empty_trailer_and_one_of_one_octet() {
    let mut draft = by_id();
    draft.trailer.clear();
    assert_eq!(draft.number(), MALFORMED);
    draft.trailer = vec![1];
    assert_eq!(draft.number(), CUT);
    draft.trailer = vec![2];
    assert_eq!(draft.number(), UNSUPPORTED);
}

#[test]
fn point_14_octets_behind_the_signature() {
    let mut draft = by_id();
    draft.trailer.push(7);
    assert_eq!(draft.number(), MALFORMED);
    draft.trailer = trailer().repeat(2);
    assert_eq!(draft.number(), MALFORMED);
    // A fault of the signature is earlier.
    draft.trailer[2] = 9;
    assert_eq!(draft.number(), UNSUPPORTED);
}

#[test]
fn point_15_the_first_header() {
    let rest = [generation_time(GENERATION), its_aid(36)].concat();
    for (first, expected) in [
        (0, MALFORMED),
        (5, MALFORMED),
        (6, UNSUPPORTED),
        (129, UNSUPPORTED),
        (130, UNSUPPORTED),
    ] {
        assert_eq!(message(&[vec![first], rest.clone()]).number(), expected);
        // Found at the type octet, before a fault behind it.
        assert_eq!(message(&[vec![first, 0xf0]]).number(), expected);
    }
    // The signer behind the others.
    let headers = [generation_time(GENERATION), its_aid(36), signer_id(SIGNER)];
    assert_eq!(message(&headers).number(), MALFORMED);
    let signer = signer_id(SIGNER);
    assert_eq!(message(&[signer.clone(), signer]).number(), MALFORMED);
}

#[test]
fn point_19_a_time_with_deviation_and_an_unavailable_location() {
    let [signer, time] = [signer_id(SIGNER), generation_time(GENERATION)];
    let deviation = time_with_deviation(GENERATION);
    let headers = [signer.clone(), deviation.clone(), its_aid(36)];
    assert_eq!(message(&headers).number(), MALFORMED);
    let headers = [signer.clone(), time.clone(), deviation, its_aid(36)];
    assert_eq!(message(&headers).number(), READS);
    for place in [location(900_000_001, 0), location(0, 1_800_000_001)] {
        let headers = [signer.clone(), time.clone(), place, its_aid(36)];
        assert_eq!(message(&headers).number(), MALFORMED);
    }
}
