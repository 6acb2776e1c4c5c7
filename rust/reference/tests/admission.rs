//! Install and admit: what is written, and where (document 01, "Order of checks").

mod common;

use common::stores::*;
use common::*;
use reference::constants::{
    ACCEPTED, ALREADY_HELD, BAD_CALL, CUT, FULL, MALFORMED, SIGNATURE, TOO_LONG, UNKNOWN,
    UNSUPPORTED, WRONG_KIND,
};
use reference::{admit, find, id, install, SLOT_LENGTH};

const AUTHORITY_ID: u64 = u64::from_be_bytes(ISSUER);

fn id_of(octets: &[u8]) -> u64 {
    u64::from_be_bytes(id(octets).unwrap())
}

/// The slot of a certificate of the drafts: key 11.., permission 36, 200 to 300.
fn slot_of(octets: &[u8], kind: u64) -> Fields {
    Fields {
        issuer: if kind == 4 { 0 } else { AUTHORITY_ID },
        kind,
        start: 200,
        end: 300,
        key: [0x11; 32],
        ..Fields::new(id_of(octets))
    }
}

/// Slot 0 holds the authority that the drafts name.
fn authority_store() -> Vec<u8> {
    store_of(&[Fields::new(AUTHORITY_ID)])
}

/// What the store should be when `fields` went to slot `number`.
fn written(store: &[u8], number: usize, fields: &Fields) -> Vec<u8> {
    let mut store = store.to_vec();
    set_slot(&mut store, number, &fields.slot());
    store
}

type Operation = fn(&mut [u8], &[u8], u8) -> u8;

/// The answer to a good verdict; asserts that a refusal changes nothing.
fn answer(operation: Operation, store: &[u8], octets: &[u8]) -> (u8, Vec<u8>) {
    let mut after = store.to_vec();
    let number = operation(&mut after, octets, 1);
    assert_eq!(number != ACCEPTED, after == store);
    (number, after)
}

#[test]
fn install_writes_a_root() {
    let octets = root().octets();
    let fields = slot_of(&octets, 4);
    // SHA-256 of the 119 octets ends so, by another program.
    assert_eq!(fields.id, 0xa4fa_04b7_5aac_1e4d);
    let store = empty_store();
    assert_eq!(
        answer(install, &store, &octets),
        (ACCEPTED, written(&store, 0, &fields))
    );
}

#[test]
fn admit_writes_a_ticket_and_an_authority() {
    let store = authority_store();
    let octets = ticket().octets();
    let expected = written(&store, 1, &slot_of(&octets, 1));
    assert_eq!(answer(admit, &store, &octets), (ACCEPTED, expected.clone()));

    let octets = authority().octets();
    let mut fields = slot_of(&octets, 2);
    fields.name_length = 2;
    fields.name[..2].copy_from_slice(b"B1");
    let both = written(&expected, 2, &fields);
    assert_eq!(answer(admit, &expected, &octets), (ACCEPTED, both));
}

/// Name, region and permissions at their greatest, point type 3, an end by duration.
fn greatest(permissions: &[u64], region: &[[i32; 4]]) -> Draft {
    let list: Vec<u8> = (permissions.iter())
        .flat_map(|its_aid| int_x(*its_aid as usize))
        .collect();
    let edges: Vec<u8> = (region.iter())
        .flat_map(|[north, west, south, east]| rectangle(*north, *west, *south, *east))
        .collect();
    Draft {
        head: [vec![2, 1], ISSUER.to_vec(), vec![2, 32], (1..33).collect()].concat(),
        attributes: [
            vec![0, 0, 3],
            (100..132).collect(),
            encryption_key(),
            vec![2, 0x83],
            its_aid_list(&list),
        ]
        .concat(),
        restrictions: [vec![2, 0, 0, 0, 200, 0x9f, 0xff], rectangles(&edges)].concat(),
        signature: signature(3),
    }
}

/// The encryption key, the assurance and the signature are not stored.
#[test]
fn admit_writes_everything() {
    let region = [[5, -9, -5, 9], [4, -8, -4, 8], [3, -7, -3, 7], [1, 0, 0, 1]];
    let permissions = std::array::from_fn(|n| [268_435_455, 128, n as u64][n % 3]);
    let octets = greatest(&permissions, &region).octets();
    let mut issuer = Fields {
        end: LATEST_END,
        permission_count: 16,
        permissions,
        ..Fields::new(AUTHORITY_ID)
    };
    issuer.permissions.reverse();
    let store = store_of(&[issuer]);
    let fields = Fields {
        end: 200 + 8_191 * 31_556_925,
        name_length: 32,
        name: std::array::from_fn(|n| n as u8 + 1),
        parity: 1,
        key: std::array::from_fn(|n| n as u8 + 100),
        rectangle_count: 4,
        rectangles: region,
        permission_count: 16,
        permissions,
        ..slot_of(&octets, 2)
    };
    assert_eq!(
        answer(admit, &store, &octets),
        (ACCEPTED, written(&store, 1, &fields))
    );
}

/// "With form 0, start is 0"; "no region and none both mean everywhere".
#[test]
fn install_form_0_and_region_none() {
    let mut draft = root();
    draft.restrictions = vec![0, 0, 0, 1, 44, 3, 0];
    draft.attributes = [verification_key(), its_aid_list(&[])].concat();
    let octets = draft.octets();
    let mut fields = slot_of(&octets, 4);
    (fields.start, fields.permission_count, fields.permissions) = (0, 0, [0; 16]);
    let store = empty_store();
    assert_eq!(
        answer(install, &store, &octets),
        (ACCEPTED, written(&store, 0, &fields))
    );
}

#[test]
fn the_lowest_empty_slot() {
    let octets = root().octets();
    let fields = slot_of(&octets, 4);
    for lowest in 0..64 {
        let mut store = full_store();
        set_slot(&mut store, lowest, &[0; SLOT_LENGTH]);
        let expected = written(&store, lowest, &fields);
        assert_eq!(answer(install, &store, &octets), (ACCEPTED, expected));
        // Others above it are left.
        store[(lowest + 1) * SLOT_LENGTH..].fill(0);
        let expected = written(&store, lowest, &fields);
        assert_eq!(answer(install, &store, &octets), (ACCEPTED, expected));
    }
}

/// "A withdrawn slot stays filled for good."
#[test]
fn a_withdrawn_slot_is_not_used_again() {
    let mut slots: Vec<Fields> = (1..=64).map(Fields::new).collect();
    slots[0].state = 2;
    let octets = root().octets();
    assert_eq!(answer(install, &store_of(&slots), &octets).0, FULL);
    let store = store_of(&slots[..3]);
    let expected = written(&store, 3, &slot_of(&octets, 4));
    assert_eq!(answer(install, &store, &octets), (ACCEPTED, expected));
}

#[test]
fn held_or_withdrawn_is_already_held() {
    for (operation, octets) in [
        (install as Operation, root().octets()),
        (admit, ticket().octets()),
        (admit, authority().octets()),
    ] {
        for state in [1, 2] {
            // Whatever else the slot says.
            let mut other = Fields::with_counts(id_of(&octets), 3, 1, 2);
            other.state = state;
            let store = store_of(&[Fields::new(AUTHORITY_ID), other]);
            assert_eq!(answer(operation, &store, &octets).0, ALREADY_HELD);
        }
        let store = authority_store();
        let (number, after) = answer(operation, &store, &octets);
        assert_eq!(number, ACCEPTED);
        assert_eq!(answer(operation, &after, &octets).0, ALREADY_HELD);
    }
}

/// The id takes the signature's point type as 0, so the three are one certificate.
#[test]
fn one_certificate_is_held_once() {
    let mut draft = root();
    let (_, store) = answer(install, &empty_store(), &draft.octets());
    for point_type in [2, 3] {
        draft.signature = signature(point_type);
        assert_eq!(answer(install, &store, &draft.octets()).0, ALREADY_HELD);
    }
}

#[test]
fn kinds() {
    let store = authority_store();
    assert_eq!(answer(install, &store, &ticket().octets()).0, WRONG_KIND);
    assert_eq!(answer(install, &store, &authority().octets()).0, WRONG_KIND);
    assert_eq!(answer(admit, &store, &root().octets()).0, WRONG_KIND);
}

#[test]
fn one_verdict_alone_is_good() {
    for verdict in 0..=255 {
        let expected = if verdict == 1 { ACCEPTED } else { SIGNATURE };
        let mut store = authority_store();
        assert_eq!(install(&mut store, &root().octets(), verdict), expected);
        assert_eq!(admit(&mut store, &ticket().octets(), verdict), expected);
        assert_eq!(store == authority_store(), verdict != 1);
    }
}

/// A certificate's own refusals come through: 3, 4, 5, 6.
#[test]
fn reading() {
    let store = authority_store();
    for (operation, good) in [
        (install as Operation, root().octets()),
        (admit, ticket().octets()),
    ] {
        let cut = &good[..good.len() - 1];
        let left_over = [&good[..], &[0]].concat();
        let version_3 = [&[3], &good[1..]].concat();
        assert_eq!(answer(operation, &store, cut).0, CUT);
        assert_eq!(answer(operation, &store, &[]).0, CUT);
        assert_eq!(answer(operation, &store, &left_over).0, MALFORMED);
        assert_eq!(answer(operation, &store, &version_3).0, UNSUPPORTED);
        assert_eq!(answer(operation, &store, &[0; 1_025]).0, TOO_LONG);
    }
}

#[test]
fn store_lengths() {
    for length in [0, 212, 13_356, 13_567, 13_569, 13_780] {
        let store = vec![0; length];
        assert_eq!(answer(install, &store, &root().octets()).0, BAD_CALL);
        assert_eq!(answer(admit, &store, &ticket().octets()).0, BAD_CALL);
    }
}

/// A ticket that names the issuer 00.. finds a filled slot of that id, never an empty one.
#[test]
fn the_issuer_zero() {
    let mut draft = ticket();
    draft.head[2..10].fill(0);
    let octets = draft.octets();
    assert_eq!(answer(admit, &empty_store(), &octets).0, UNKNOWN);
    assert_eq!(answer(admit, &authority_store(), &octets).0, UNKNOWN);
    let mut store = empty_store();
    set_slot(&mut store, 5, &Fields::new(0).slot());
    let fields = Fields {
        issuer: 0,
        ..slot_of(&octets, 1)
    };
    assert_eq!(
        answer(admit, &store, &octets),
        (ACCEPTED, written(&store, 0, &fields))
    );
}

/// Admission looks one step up: an issuer whose own issuer is withdrawn or unknown will do.
#[test]
fn one_step_up() {
    let mut above = Fields::new(0x0101_0101_0101_0101);
    above.state = 2;
    let store = store_of(&[above, Fields::new(AUTHORITY_ID)]);
    assert_eq!(answer(admit, &store, &ticket().octets()).0, ACCEPTED);
    assert_eq!(
        answer(admit, &authority_store(), &ticket().octets()).0,
        ACCEPTED
    );
}

#[test]
fn find_by_id() {
    let mut withdrawn = Fields::new(77);
    withdrawn.state = 2;
    let mut store = full_store();
    set_slot(&mut store, 63, &withdrawn.slot());
    set_slot(&mut store, 9, &[0; SLOT_LENGTH]);
    let at = |id: u64| find(&store, &id.to_be_bytes());
    assert_eq!(at(1_000), Some(0));
    assert_eq!(at(1_008), Some(8));
    assert_eq!(at(1_009), None);
    assert_eq!(at(77), Some(63));
    assert_eq!(at(0), None);
    assert_eq!(at(0x0101_0101_0101_0101), None);
    set_slot(&mut store, 11, &Fields::new(0).slot());
    assert_eq!(find(&store, &[0; 8]), Some(11));
}
