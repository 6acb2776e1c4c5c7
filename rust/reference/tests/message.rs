//! Reading a message: what each field may be (document 01, "The signed message"). A message that
//! reads is then refused for its unknown signer, as the store is empty.

mod common;

use common::messages::*;
use common::*;
use reference::constants::{CUT, MALFORMED, TOO_LONG, UNSUPPORTED};

fn number_of(headers: &[Vec<u8>]) -> u8 {
    message(headers).number()
}

/// The drafts' signer, then these headers.
fn behind_signer(headers: &[u8]) -> u8 {
    number_of(&[signer_id(SIGNER), headers.to_vec()])
}

/// The drafts' signer and generation time, this header, and its_aid.
fn with_header(header: &[u8]) -> u8 {
    let time = generation_time(GENERATION);
    number_of(&[signer_id(SIGNER), time, header.to_vec(), its_aid(36)])
}

#[test]
fn good_messages_read() {
    let signers = [signer_id(SIGNER), signer_certificate(&ticket().octets())];
    for signer in signers {
        let [time, .., its_aid] = all_headers();
        let mut headers = vec![signer, time, its_aid];
        assert_eq!(number_of(&headers), READS);
        headers.splice(1.., all_headers());
        assert_eq!(number_of(&headers), READS);
    }
    // Any choice of the optional headers.
    for set in 0..1 << 4 {
        let mut headers = vec![signer_id(SIGNER)];
        for (number, header) in all_headers().into_iter().enumerate() {
            if number == 0 || number == 5 || set >> (number - 1) & 1 == 1 {
                headers.push(header);
            }
        }
        assert_eq!(number_of(&headers), READS, "{set}");
    }
}

#[test]
fn every_beginning_of_a_message_is_cut() {
    let [first, second, third] = [
        by_id(),
        embedding(&ticket().octets()),
        message(&[vec![signer_id(SIGNER)], all_headers().to_vec()].concat()),
    ]
    .map(|draft| draft.octets());
    for octets in [first, second, third] {
        assert_eq!(message_number(&octets), READS);
        for length in 0..octets.len() {
            assert_eq!(message_number(&octets[..length]), CUT, "{length}");
        }
    }
}

#[test]
fn octets_behind_the_message() {
    for octet in [0, 1, 0xf0] {
        let octets = [by_id().octets(), vec![octet]].concat();
        assert_eq!(message_number(&octets), MALFORMED);
    }
}

#[test]
fn at_most_2048_octets() {
    let mut draft = by_id();
    // Two octets of length in place of one.
    draft.payload = vec![7; 2_048 - (draft.octets().len() - 3) - 1];
    assert_eq!(draft.octets().len(), 2_048);
    assert_eq!(draft.number(), READS);
    draft.payload.push(7);
    assert_eq!(draft.number(), TOO_LONG);
    draft.version = 3;
    assert_eq!(draft.number(), TOO_LONG);
    assert_eq!(message_number(&[0; 2_049]), TOO_LONG);
    assert_eq!(message_number(&[0; 2_048]), UNSUPPORTED);
}

#[test]
fn versions() {
    for version in (0..=255).filter(|version| *version != 2) {
        let mut draft = by_id();
        draft.version = version;
        assert_eq!(draft.number(), UNSUPPORTED, "{version}");
        assert_eq!(message_number(&[version]), UNSUPPORTED);
    }
    assert_eq!(message_number(&[]), CUT);
}

#[test]
fn length_of_the_header_vector() {
    assert_eq!(message_number(&[2, 0x80]), CUT);
    assert_eq!(message_number(&[2, 0xf0]), UNSUPPORTED);
    assert_eq!(message_number(&[2, 0x80, 0x7f]), MALFORMED);
    // It passes the message's end, before the unnamed header inside it.
    assert_eq!(message_number(&[2, 2, 7]), CUT);
    assert_eq!(message_number(&[2, 1, 7]), UNSUPPORTED);
}

#[test]
fn the_first_header() {
    for header in 0..=255 {
        let mut draft = by_id();
        draft.headers[0] = header;
        let expected = match header {
            128 => READS,
            0..=5 => MALFORMED,
            _ => UNSUPPORTED,
        };
        assert_eq!(draft.number(), expected, "{header}");
        // Found at the type, also where nothing follows it.
        draft.headers.truncate(1);
        let expected = if header == 128 { CUT } else { expected };
        assert_eq!(draft.number(), expected, "{header}");
    }
}

/// Behind the signer and the headers up to `last`, every type octet that ends the vector.
#[test]
fn the_next_header() {
    for last in 0..=5 {
        let headers = all_headers()[..=usize::from(last)].concat();
        for header in 0..=255 {
            let expected = match header {
                128 => MALFORMED,
                6.. => UNSUPPORTED,
                _ if header <= last => MALFORMED,
                _ => CUT,
            };
            let headers = [&headers[..], &[header]].concat();
            assert_eq!(behind_signer(&headers), expected, "{last} {header}");
        }
    }
}

#[test]
fn headers_out_of_order_or_repeated() {
    for first in 0..6 {
        for second in 0..=first {
            let mut headers = all_headers().to_vec();
            let later = headers[second].clone();
            headers.insert(first + 1, later);
            assert_eq!(behind_signer(&headers.concat()), MALFORMED);
            headers.push(vec![7]);
            assert_eq!(behind_signer(&headers.concat()), MALFORMED);
            headers.insert(0, vec![7]);
            assert_eq!(behind_signer(&headers.concat()), UNSUPPORTED);
        }
    }
    let twice = [signer_id(SIGNER), all_headers().concat()].concat();
    assert_eq!(behind_signer(&twice), MALFORMED);
}

#[test]
fn signer_types() {
    for signer in (0..=255).filter(|signer| *signer != 1 && *signer != 2) {
        let mut draft = by_id();
        draft.headers[1] = signer;
        assert_eq!(draft.number(), UNSUPPORTED, "{signer}");
    }
}

/// The vector ends inside a header: after each of its octets but the last.
#[test]
fn a_header_that_passes_its_vector() {
    let signer = signer_id(SIGNER);
    for length in 1..signer.len() {
        assert_eq!(number_of(&[signer[..length].to_vec()]), CUT, "{length}");
    }
    let headers = all_headers();
    for (number, header) in headers.iter().enumerate() {
        for length in 1..header.len() {
            let before = headers[..number].concat();
            let octets = [&before, &header[..length]].concat();
            assert_eq!(behind_signer(&octets), CUT, "{number} {length}");
        }
    }
}

#[test]
fn location_ranges() {
    let answer = |latitude, longitude| with_header(&location(latitude, longitude));
    for (latitude, longitude) in [
        (900_000_000, 1_800_000_000),
        (-900_000_000, -1_800_000_000),
        (-1, -1),
    ] {
        assert_eq!(answer(latitude, longitude), READS);
    }
    for latitude in [900_000_001, -900_000_001, i32::MAX, i32::MIN] {
        assert_eq!(answer(latitude, 0), MALFORMED);
    }
    for longitude in [1_800_000_001, -1_800_000_001, i32::MAX, i32::MIN] {
        assert_eq!(answer(0, longitude), MALFORMED);
    }
}

/// A fault counts at its field: a range fault comes before a cut behind it.
#[test]
fn location_faults_in_order() {
    let cut_after = |header: &[u8], length| {
        let time = generation_time(GENERATION);
        behind_signer(&[&time, &header[..length]].concat())
    };
    let latitude = location(900_000_001, 0);
    assert_eq!(cut_after(&latitude, 4), CUT);
    assert_eq!(cut_after(&latitude, 5), MALFORMED);
    let longitude = location(0, 1_800_000_001);
    assert_eq!(cut_after(&longitude, 8), CUT);
    assert_eq!(cut_after(&longitude, 9), MALFORMED);
    assert_eq!(cut_after(&location(0, 0), 10), CUT);
}

#[test]
fn digest_vectors() {
    for length in 0..=30 {
        let expected = if length % 3 == 0 { READS } else { CUT };
        let header = digests(&vec![0xff; length]);
        assert_eq!(with_header(&header), expected, "{length}");
    }
    assert_eq!(with_header(&[4, 0xf0]), UNSUPPORTED);
    assert_eq!(with_header(&[4, 0x80, 0x03, 1, 1, 1]), MALFORMED);
    // Past the header vector, though the message goes on.
    assert_eq!(with_header(&[4, 6, 1, 1, 1]), CUT);
}

#[test]
fn its_aid_values() {
    let time = generation_time(GENERATION);
    let answer = |its_aid: &[u8]| behind_signer(&[&time[..], &[5], its_aid].concat());
    assert_eq!(answer(&[0]), READS);
    assert_eq!(answer(&[0xef, 0xff, 0xff, 0xff]), READS);
    assert_eq!(answer(&[0x80, 0x80]), READS);
    assert_eq!(answer(&[0x80, 0x7f]), MALFORMED);
    assert_eq!(answer(&[0x80]), CUT);
    assert_eq!(answer(&[0xf0]), UNSUPPORTED);
    assert_eq!(answer(&[]), CUT);
}

#[test]
fn payload_types() {
    for payload_type in (0..=255).filter(|payload_type| *payload_type != 1) {
        let mut draft = by_id();
        draft.payload_type = payload_type;
        assert_eq!(draft.number(), UNSUPPORTED, "{payload_type}");
    }
}

#[test]
fn payload_vectors() {
    let mut draft = by_id();
    draft.payload.clear();
    assert_eq!(draft.number(), READS);
    let head = [vec![2], vector(&draft.headers), vec![1]].concat();
    let answer = |tail: &[u8]| message_number(&[&head, tail].concat());
    assert_eq!(answer(&[]), CUT);
    assert_eq!(answer(&[0xf0]), UNSUPPORTED);
    assert_eq!(answer(&[0x80]), CUT);
    assert_eq!(answer(&[0x80, 0x03, 1, 1, 1]), MALFORMED);
    assert_eq!(answer(&[3, 1, 1]), CUT);
    // Whole, but the trailer vector is missing.
    assert_eq!(answer(&[3, 1, 1, 1]), CUT);
    assert_eq!(answer(&[3, 1, 1, 1, 0xf0]), UNSUPPORTED);
    assert_eq!(answer(&[3, 1, 1, 1, 0x80, 0x43]), MALFORMED);
}

fn with_trailer(trailer: &[u8]) -> u8 {
    let mut draft = by_id();
    draft.trailer = trailer.to_vec();
    draft.number()
}

#[test]
fn trailer_types_and_signatures() {
    for octet in 0..=255 {
        let replaced = |at: usize| {
            let mut trailer = trailer();
            trailer[at] = octet;
            with_trailer(&trailer)
        };
        let expected = |named: &[u8]| match named.contains(&octet) {
            true => READS,
            false => UNSUPPORTED,
        };
        assert_eq!(replaced(0), expected(&[1]), "type {octet}");
        assert_eq!(replaced(1), expected(&[0]), "algorithm {octet}");
        assert_eq!(replaced(2), expected(&[0, 2, 3]), "point type {octet}");
        // Octets of the signature's numbers may be anything.
        assert_eq!(replaced(3), READS);
        assert_eq!(replaced(66), READS);
    }
}

#[test]
fn trailer_lengths() {
    let trailer = trailer();
    assert_eq!(trailer.len(), 67);
    for length in 1..67 {
        assert_eq!(with_trailer(&trailer[..length]), CUT, "{length}");
    }
    assert_eq!(with_trailer(&trailer), READS);
    assert_eq!(with_trailer(&[]), MALFORMED);
    assert_eq!(with_trailer(&[&trailer[..], &[0]].concat()), MALFORMED);
    // Past the message's end, before the unnamed type inside it.
    let mut draft = by_id();
    draft.trailer[0] = 9;
    let mut octets = draft.octets();
    octets.pop();
    assert_eq!(message_number(&octets), CUT);
}

#[test]
fn faults_of_an_embedded_certificate() {
    let answer = |draft: &Draft| embedding(&draft.octets()).number();
    assert_eq!(answer(&ticket()), READS);
    let mut draft = ticket();
    draft.head[0] = 3;
    assert_eq!(answer(&draft), UNSUPPORTED);
    draft = ticket();
    draft.head[10] = 4;
    assert_eq!(answer(&draft), MALFORMED);
    draft = ticket();
    draft.restrictions.clear();
    assert_eq!(answer(&draft), MALFORMED);
    draft.signature[0] = 1;
    assert_eq!(answer(&draft), UNSUPPORTED);
    draft = ticket();
    draft.attributes[34] = 0xff;
    assert_eq!(answer(&draft), READS);
    draft.attributes[0] = 9;
    assert_eq!(answer(&draft), UNSUPPORTED);
}

/// The header vector is the certificate's container, though the message goes on behind it.
#[test]
fn a_header_vector_that_cuts_its_certificate() {
    let certificate = ticket().octets();
    for length in 0..certificate.len() {
        let headers = [signer_certificate(&certificate[..length])];
        assert_eq!(number_of(&headers), CUT, "{length}");
    }
    // A fault before the cut comes first.
    let mut certificate = certificate;
    certificate[0] = 3;
    assert_eq!(
        number_of(&[signer_certificate(&certificate[..50])]),
        UNSUPPORTED
    );
}
