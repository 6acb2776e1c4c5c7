//! Something required is lacking: 5 where its vector ends, unless the next
//! field, which begins there, is cut (4) or not read here (6).

use difftest::draft::{Draft, Encoded};
use difftest::hex;
use difftest::judgements::Judgement;
use difftest::message::layout::{self, Layout};
use difftest::message::scene::Made;
use difftest::random::Random;
use difftest::wire::Wire;

use crate::by_hand::scene;
use crate::check::check;

const SIGNER: &[u8] = &[128, 1, 7, 7, 7, 7, 7, 7, 7, 7];
const GENERATION: &[u8] = &[0, 0, 0, 0, 0, 0, 0, 0, 1];
const DEVIATION: &[u8] = &[1, 0, 0, 0, 0, 0, 0, 0, 1, 9];
const ITS_AID: &[u8] = &[5, 36];
/// An empty payload and a trailer; its signature is all zero.
const REST: &[u8] = &[1, 0, 67, 1];

fn made(carried: bool) -> Made {
    scene(carried).made(Vec::new(), &mut Random::new(1))
}

/// The number of some octets.
fn number(message: Vec<u8>) -> u8 {
    let mut made = made(false);
    made.judgement = Judgement {
        message,
        ..made.judgement
    };
    made.facts.reading = None;
    check(&made).unwrap_or_else(|said| panic!("{said}: {}", hex::text(&made.judgement.message)))
}

/// A message of these headers, with this behind them.
fn message(headers: &[&[u8]], behind: &[u8]) -> Vec<u8> {
    let headers = headers.concat();
    [&[2, headers.len() as u8], &headers[..], behind].concat()
}

fn whole(headers: &[&[u8]]) -> Vec<u8> {
    [message(headers, REST), vec![0; 66]].concat()
}

#[test]
fn headers() {
    let lists: [&[&[u8]]; 7] = [
        &[],
        &[SIGNER],
        &[SIGNER, GENERATION],
        &[SIGNER, ITS_AID],
        &[SIGNER, DEVIATION],
        &[SIGNER, DEVIATION, ITS_AID],
        &[SIGNER, GENERATION, DEVIATION],
    ];
    for headers in lists {
        assert_eq!(number(whole(headers)), 5, "{headers:?}");
        for (expected, behind) in [
            (4, vec![]),
            (6, vec![0]),
            (6, vec![2, 0]),
            (6, vec![128]),
            (6, vec![255]),
            (5, vec![1]),
            (5, vec![1, 0xf0]),
            (5, vec![1, 0x80, 0x7f]),
            (5, vec![1, 100]),
            (5, vec![1, 0, 0]),
        ] {
            let given = number(message(headers, &behind));
            assert_eq!(given, expected, "{headers:?}, then {behind:?}");
        }
    }
}

/// Another first header is out of order at its own type, before all of that.
#[test]
fn no_signer() {
    let lists: [&[&[u8]]; 4] = [
        &[GENERATION],
        &[ITS_AID],
        &[GENERATION, ITS_AID],
        &[GENERATION, SIGNER, ITS_AID],
    ];
    for headers in lists {
        for behind in [vec![], vec![0], vec![1], REST.to_vec()] {
            assert_eq!(number(message(headers, &behind)), 5, "{headers:?}");
        }
    }
    assert_eq!(number(whole(&[SIGNER, GENERATION, ITS_AID])), 14);
}

/// An empty trailer lacks its signature where it ends; there nothing follows.
#[test]
fn trailers() {
    let front = message(&[SIGNER, GENERATION, ITS_AID], &[1, 0]);
    for (expected, trailer) in [
        (4, vec![]),
        (5, vec![0]),
        (5, vec![0, 0]),
        (5, vec![0, 0xff]),
        (4, vec![1]),
        (4, vec![1, 1]),
        (6, vec![1, 0]),
        (6, vec![1, 2]),
        (4, vec![2, 1, 0]),
        (6, vec![2, 1, 1]),
        (5, vec![0x80, 0x00]),
        (6, vec![0xf0]),
    ] {
        let given = number([&front[..], &trailer].concat());
        assert_eq!(given, expected, "{trailer:?}");
    }
}

/// A message with this for its certificate, up to an octet of it if one is
/// given: there the headers end.
fn bringing(certificate: &[u8], end: Option<usize>) -> Vec<u8> {
    let mut made = made(true);
    let cut = &certificate[..end.unwrap_or(certificate.len())];
    let wire = Wire {
        octets: cut.to_vec(),
        marks: Vec::new(),
    };
    made.facts.message.digests = None;
    let mut layout = Layout::of(&made.facts.message);
    layout.headers[0] = layout::certificate(wire);
    if end.is_some() {
        layout.headers.truncate(1);
    }
    layout.write().wire.octets
}

/// The numbers for another octet where a vector of the certificate ends, for
/// others behind it, and for headers that end there or one octet later.
fn check_certificate(encoded: Encoded, end: usize, unread: &[u8], good: u8) {
    let octets = encoded.octets();
    assert_eq!(number(bringing(&octets, None)), 5);
    for &octet in unread {
        let mut other = octets.clone();
        other[end] = octet;
        assert_eq!(number(bringing(&other, None)), 6, "{octet:02x}");
        assert_eq!(number(bringing(&other, Some(end + 1))), 6, "{octet:02x}");
    }
    let mut further = octets.clone();
    further[end] = good;
    for octet in [9, 0xf0, 0xff] {
        further[end + 1] = octet;
        assert_eq!(number(bringing(&further, None)), 5, "{octet:02x}");
    }
    assert_eq!(number(bringing(&octets, Some(end))), 4);
}

/// The container of a certificate is the header vector.
#[test]
fn certificates() {
    let draft = Draft::of(&scene(true).chain.signer);
    for lacking in [0, draft.attributes.len() - 1] {
        let mut without = draft.clone();
        without.attributes.remove(lacking);
        let encoded = without.encode();
        let end = encoded.attributes_end;
        let length = encoded.wire.octets[end];
        check_certificate(encoded.clone(), end, &[0xf0, 0xf8, 0xff], length);
        // The restrictions pass the headers: their length is cut.
        let octets = encoded.octets();
        assert_eq!(number(bringing(&octets, Some(end + 1))), 4);
        assert_eq!(
            number(bringing(&octets, Some(end + usize::from(length)))),
            4
        );
        let next = Some(end + usize::from(length) + 1);
        assert_eq!(number(bringing(&octets, next)), 5);
    }
    let mut without = draft;
    without.restrictions.remove(0);
    let encoded = without.encode();
    let end = encoded.restrictions_end;
    check_certificate(encoded.clone(), end, &[1, 2, 128, 255], 0);
    assert_eq!(number(bringing(&encoded.octets(), Some(end + 1))), 5);
}
