//! Certificates made by hand after 001 clause 6, read back and damaged field by field.

mod common;

use common::*;
use reference::constants::{CUT, MALFORMED, TOO_LONG, UNSUPPORTED};
use reference::{id, read, sha256, Part, Permission, Rectangle};

const NOWHERE: Part = Part {
    start: 0,
    length: 0,
};

fn part(start: usize, length: usize) -> Part {
    Part { start, length }
}

#[test]
fn ticket_fields() {
    let certificate = ticket().read().unwrap();
    assert_eq!((certificate.signer, certificate.kind), (1, 1));
    assert_eq!(certificate.issuer, part(2, 8));
    assert_eq!(certificate.name, part(12, 0));
    assert_eq!((certificate.key_type, certificate.key), (2, part(16, 32)));
    assert_eq!(certificate.encryption_key_type, 0);
    assert_eq!(certificate.encryption_key, NOWHERE);
    assert_eq!(
        (certificate.has_assurance, certificate.assurance),
        (false, 0)
    );
    let permission = Permission {
        its_aid: 36,
        ssp: part(52, 2),
    };
    assert_eq!(certificate.permissions(), [permission]);
    assert_eq!(certificate.permissions[1..], [Permission::default(); 15]);
    assert_eq!(certificate.period_form, 1);
    assert_eq!((certificate.start, certificate.end), (200, 300));
    assert!(!certificate.has_region);
    assert!(certificate.rectangles().is_empty());
    assert_eq!(certificate.rectangles, [Rectangle::default(); 4]);
    assert_eq!(certificate.signature, part(64, 66));
    assert_eq!(certificate.signature_type, 0);
    assert_eq!(certificate.signed_length(), 64);
}

#[test]
fn authority_with_everything() {
    let mut draft = authority();
    draft.attributes = [
        verification_key(),
        encryption_key(),
        vec![2, 0x83],
        its_aid_list(&[36, 0x80, 0x80, 36]),
    ]
    .concat();
    draft.restrictions = [
        vec![2, 0, 0, 0, 200, 0x60, 0x02],
        rectangles(&[rectangle(10, -20, -1, 0), rectangle(5, 1, 4, 2)].concat()),
    ]
    .concat();
    draft.signature = signature(3);
    let certificate = draft.read().unwrap();
    assert_eq!((certificate.signer, certificate.kind), (1, 2));
    assert_eq!(certificate.name, part(12, 2));
    assert_eq!((certificate.key_type, certificate.key), (2, part(18, 32)));
    assert_eq!(certificate.encryption_key_type, 3);
    assert_eq!(certificate.encryption_key, part(54, 32));
    assert_eq!(
        (certificate.has_assurance, certificate.assurance),
        (true, 0x83)
    );
    let permissions = [36, 128, 36].map(|its_aid| Permission {
        its_aid,
        ssp: NOWHERE,
    });
    assert_eq!(certificate.permissions(), permissions);
    assert_eq!(certificate.period_form, 2);
    assert_eq!((certificate.start, certificate.end), (200, 432_200));
    assert!(certificate.has_region);
    let first = Rectangle {
        north: 10,
        west: -20,
        south: -1,
        east: 0,
    };
    assert_eq!(certificate.rectangle_count, 2);
    assert_eq!(certificate.rectangles()[0], first);
    assert_eq!(certificate.signature_type, 3);
    assert_eq!(certificate.signed_length(), draft.octets().len() - 66);
}

#[test]
fn root_fields() {
    let certificate = root().read().unwrap();
    assert_eq!((certificate.signer, certificate.kind), (0, 4));
    assert_eq!(certificate.issuer, NOWHERE);
    assert_eq!(certificate.name, part(4, 0));
}

#[test]
fn period_forms() {
    let mut draft = root();
    let mut period = |octets: &[u8]| {
        draft.restrictions = octets.to_vec();
        draft.read().map(|c| (c.period_form, c.start, c.end))
    };
    assert_eq!(period(&[0, 0, 0, 0, 1]), Ok((0, 0, 1)));
    assert_eq!(period(&[0, 0, 0, 0, 0]), Err(MALFORMED));
    let latest = [2, 0xff, 0xff, 0xff, 0xff, 0x9f, 0xff];
    assert_eq!(period(&latest), Ok((2, u32::MAX, 262_777_739_970)));
    assert_eq!(period(&[2, 0, 0, 0, 7, 0x20, 1]), Ok((2, 7, 67)));
    assert_eq!(period(&[2, 0, 0, 0, 7, 0x20, 0]), Err(MALFORMED));
    assert_eq!(period(&[2, 0, 0, 0, 7, 0xa0, 1]), Err(MALFORMED));
    assert_eq!(period(&[1, 0, 0, 0, 7, 0, 0, 0, 7]), Err(MALFORMED));
    assert_eq!(period(&[1, 0, 0, 0, 7, 0, 0, 0, 8]), Ok((1, 7, 8)));
}

#[test]
fn region_none_is_everywhere() {
    let mut draft = root();
    draft.restrictions.extend([3, 0]);
    let certificate = draft.read().unwrap();
    assert!(certificate.has_region);
    assert_eq!(certificate.rectangle_count, 0);
    for region_type in [1, 3, 4, 240] {
        *draft.restrictions.last_mut().unwrap() = region_type;
        assert_eq!(draft.number(), UNSUPPORTED);
    }
}

#[test]
fn rectangle_edges() {
    let number = |contents: Vec<u8>| {
        let mut draft = root();
        draft.restrictions.extend(rectangles(&contents));
        draft.number()
    };
    let world = rectangle(900_000_000, -1_800_000_000, -900_000_000, 1_800_000_000);
    assert_eq!(number(world.repeat(4)), 0);
    assert_eq!(number(world.repeat(5)), UNSUPPORTED);
    assert_eq!(number(vec![]), MALFORMED);
    assert_eq!(number(rectangle(5, 0, 5, 1)), MALFORMED);
    assert_eq!(number(rectangle(4, 0, 5, 1)), MALFORMED);
    assert_eq!(number(rectangle(5, 1, 4, 1)), MALFORMED);
    assert_eq!(number(rectangle(5, 2, 4, 1)), MALFORMED);
    assert_eq!(number(rectangle(1, -1, -1, 1)), 0);
    assert_eq!(number(rectangle(900_000_001, 0, 0, 1)), MALFORMED);
    assert_eq!(number(rectangle(0, 0, -900_000_001, 1)), MALFORMED);
    assert_eq!(number(rectangle(1, -1_800_000_001, 0, 1)), MALFORMED);
    assert_eq!(number(rectangle(1, 0, 0, 1_800_000_001)), MALFORMED);
}

/// Each version, type or algorithm octet of a ticket, with a value that is named elsewhere only.
#[test]
fn unnamed_octets_are_unsupported() {
    let mut draft = ticket();
    draft.attributes = [
        verification_key(),
        encryption_key(),
        its_aid_ssp_list(&[36, 0]),
    ]
    .concat();
    let octets = draft.octets();
    for (at, value) in [
        (0, 1),    // version
        (0, 3),    // version
        (1, 2),    // signer: certificate
        (1, 4),    // signer: digest with other algorithm
        (10, 0),   // kind: enrolment credential
        (10, 3),   // kind: enrolment authority
        (10, 5),   // kind: CRL signer
        (13, 3),   // attribute: reconstruction value
        (14, 1),   // algorithm of the verification key
        (15, 0),   // point type: x coordinate only
        (15, 4),   // point type: uncompressed
        (49, 0),   // algorithm of the encryption key
        (50, 1),   // symmetric algorithm
        (51, 0),   // point type of the encryption key
        (84, 34),  // attribute
        (89, 4),   // restriction
        (98, 1),   // algorithm of the signature
        (99, 1),   // point type of the signature
        (99, 4),   // point type of the signature: uncompressed
        (99, 255), // point type of the signature
    ] {
        let mut damaged = octets.clone();
        assert_ne!(damaged[at], value);
        damaged[at] = value;
        assert_eq!(number(&damaged), UNSUPPORTED, "octet {at} as {value}");
    }
}

#[test]
fn signer_and_kind_pair() {
    for kind in [1, 2] {
        let mut draft = root();
        draft.head[2] = kind;
        assert_eq!(draft.number(), MALFORMED);
    }
    let mut draft = authority();
    draft.head[10] = 4;
    assert_eq!(draft.number(), MALFORMED);
}

#[test]
fn name_lengths() {
    for (length, number) in [(0, 0), (1, 0), (32, 0), (33, MALFORMED), (255, MALFORMED)] {
        let mut draft = root();
        draft.head = [vec![2, 0, 4, length], vec![0x78; usize::from(length)]].concat();
        assert_eq!(draft.number(), number, "{length}");
    }
}

#[test]
fn attributes_ascend_each_once() {
    let (key, encryption, assurance) = (verification_key(), encryption_key(), vec![2, 0]);
    let list = its_aid_list(&[]);
    let number = |attributes: &[&Vec<u8>]| {
        let mut draft = authority();
        draft.attributes = attributes.iter().copied().flatten().copied().collect();
        draft.number()
    };
    assert_eq!(number(&[&key, &list]), 0);
    assert_eq!(number(&[&key, &encryption, &assurance, &list]), 0);
    assert_eq!(number(&[&key, &key, &list]), MALFORMED);
    assert_eq!(number(&[&encryption, &key, &list]), MALFORMED);
    assert_eq!(number(&[&key, &assurance, &encryption, &list]), MALFORMED);
    assert_eq!(number(&[&key, &list, &list]), MALFORMED);
    assert_eq!(number(&[&list, &key]), MALFORMED);
    assert_eq!(number(&[&key, &its_aid_ssp_list(&[])]), MALFORMED);
    assert_eq!(number(&[&key, &list, &its_aid_ssp_list(&[])]), MALFORMED);
}

#[test]
fn a_ticket_has_no_plain_list() {
    let mut draft = ticket();
    draft.attributes = [verification_key(), its_aid_list(&[36])].concat();
    assert_eq!(draft.number(), MALFORMED);
}

#[test]
fn ssp_lengths() {
    for (length, number) in [(0, 0), (31, 0), (32, MALFORMED), (127, MALFORMED)] {
        let mut draft = ticket();
        let contents = [vec![36, length], vec![0x55; usize::from(length)]].concat();
        draft.attributes = [verification_key(), its_aid_ssp_list(&contents)].concat();
        assert_eq!(draft.number(), number, "{length}");
    }
    let mut draft = ticket();
    draft.attributes = [verification_key(), its_aid_ssp_list(&[36, 0, 37, 0])].concat();
    let certificate = draft.read().unwrap();
    assert_eq!(certificate.permissions()[0].ssp, part(52, 0));
    assert_eq!(certificate.permissions()[1].ssp, part(54, 0));
}

#[test]
fn sixteen_permissions_are_read() {
    let mut draft = authority();
    draft.attributes = [
        verification_key(),
        its_aid_list(&[0xef, 255, 255, 255].repeat(16)),
    ]
    .concat();
    let certificate = draft.read().unwrap();
    assert_eq!(certificate.permission_count, 16);
    assert_eq!(certificate.permissions[15].its_aid, 268_435_455);
}

#[test]
fn restrictions_ascend_each_once() {
    let mut draft = root();
    draft.restrictions = [vec![3, 0], period()].concat();
    assert_eq!(draft.number(), MALFORMED);
    draft.restrictions = [period(), vec![3, 0, 3, 0]].concat();
    assert_eq!(draft.number(), MALFORMED);
    draft.restrictions = [period(), period()].concat();
    assert_eq!(draft.number(), MALFORMED);
    draft.restrictions = vec![3, 0];
    assert_eq!(draft.number(), MALFORMED);
}

/// Every beginning of a good certificate is cut, and every octet behind one is left over.
#[test]
fn cut_anywhere_and_left_over() {
    let mut full = authority();
    full.attributes = [
        verification_key(),
        encryption_key(),
        vec![2, 0],
        its_aid_list(&[0x80, 0x80].repeat(16)),
    ]
    .concat();
    full.restrictions
        .extend(rectangles(&rectangle(2, 1, 1, 2).repeat(4)));
    for draft in [ticket(), authority(), root(), full] {
        let mut octets = draft.octets();
        assert_eq!(number(&octets), 0);
        for length in 0..octets.len() {
            assert_eq!(number(&octets[..length]), CUT, "{length}");
        }
        octets.push(0);
        assert_eq!(number(&octets), MALFORMED);
    }
}

#[test]
fn too_long_comes_first() {
    let mut octets = root().octets();
    octets.resize(1_024, 0);
    assert_eq!(read(&octets), Err(MALFORMED));
    octets.push(0);
    assert_eq!(read(&octets), Err(TOO_LONG));
    assert_eq!(id(&octets), Err(TOO_LONG));
    assert_eq!(read(&[0xff; 1_025]), Err(TOO_LONG));
}

#[test]
fn id_takes_the_point_type_as_0() {
    // SHA-256 of the 119 octets ends so, by another program.
    let known = [0xa4, 0xfa, 0x04, 0xb7, 0x5a, 0xac, 0x1e, 0x4d];
    for point_type in [0, 2, 3] {
        let mut draft = root();
        draft.signature = signature(point_type);
        assert_eq!(id(&draft.octets()), Ok(known));
    }
    assert_eq!(sha256(&root().octets())[24..], known);
    assert_eq!(id(&root().octets()[..118]), Err(CUT));
}

#[test]
fn id_covers_every_other_octet() {
    let octets = ticket().octets();
    let whole = id(&octets);
    for at in [2, 16, 52, 66, 129] {
        let mut other = octets.clone();
        other[at] ^= 1;
        assert!(id(&other).is_ok());
        assert_ne!(id(&other), whole, "octet {at}");
    }
}
