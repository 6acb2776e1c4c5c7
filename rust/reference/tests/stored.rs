//! Everything that a slot holds.

mod common;

use common::chains::*;
use common::stores::*;
use reference::{admit, install, stored, withdraw, Record, SLOTS};

/// Slot 1 of document 01's page, field by field: "authority 02.., issuer 01.., 100 to 900, name B1",
/// "permission 36 alone, no region, key and parity zero".
#[test]
fn the_example() {
    let mut expected = Record {
        id: [2; 8],
        issuer: [1; 8],
        state: 1,
        kind: 2,
        start: 100,
        end: 900,
        name_length: 2,
        permission_count: 1,
        ..Record::default()
    };
    expected.name[..2].copy_from_slice(b"B1");
    expected.permissions[0] = 36;
    let store = store_of(&example());
    assert_eq!(stored(&store, 1), Ok(expected));
    // "Issuer 64 (zero for a root)"
    let root = stored(&store, 0).unwrap();
    assert_eq!((root.id, root.issuer, root.kind), ([1; 8], [0; 8], 4));
    assert_eq!((root.start, root.end, root.name()), (100, 1_000, &[][..]));
    let ticket = stored(&store, 3).unwrap();
    assert_eq!((ticket.id, ticket.issuer, ticket.kind), ([4; 8], [2; 8], 1));
    assert_eq!((ticket.start, ticket.end), (250, 400));
}

/// Each slot gives its own fields, whatever a store allows; empty slots are unknown.
#[test]
fn every_slot_and_holes() {
    let mut store = empty_store();
    let fields = |slot: usize| {
        let mut fields = Fields::with_counts(slot as u64, slot % 33, slot % 5, slot % 17);
        fields.state = 1 + slot as u64 % 2;
        fields.kind = [1, 2, 4][slot % 3];
        fields.issuer = if fields.kind == 4 { 0 } else { u64::MAX };
        fields.parity = slot as u64 / 2 % 2;
        fields.end = LATEST_END - slot as u64;
        fields
    };
    for slot in (0..SLOTS).filter(|slot| slot % 7 != 0) {
        set_slot(&mut store, slot, &fields(slot).slot());
    }
    for slot in 0..SLOTS {
        let expected = match slot % 7 {
            0 => Err(7),
            _ => Ok(fields(slot).record()),
        };
        assert_eq!(stored(&store, slot), expected, "{slot}");
    }
    for slot in 0..SLOTS {
        assert_eq!(stored(&empty_store(), slot), Err(7), "{slot}");
        let full = stored(&full_store(), slot).unwrap();
        assert_eq!(full.id, (1_000 + slot as u64).to_be_bytes());
    }
}

/// "1 (store's length, slot above 63), 2, 7 (the slot is empty)"
#[test]
fn order_of_refusals() {
    let good = store_of(&example());
    let mut bad = good.clone();
    flip(&mut bad, 8 * 212 * 64 - 1);
    let longer = [&good[..], &[0]].concat();
    for slot in [0, 5, 6, 63, 64, 65, 255, 256, 1 << 32, usize::MAX] {
        let is_slot = slot < 64;
        let first = |refusal| Err(if is_slot { refusal } else { 1 });
        assert_eq!(stored(&bad, slot), first(2), "{slot}");
        assert_eq!(stored(&empty_store(), slot), first(7), "{slot}");
        for store in [&good[1..], &longer, &bad[1..], &[]] {
            assert_eq!(stored(store, slot), Err(1), "{slot}");
        }
        let filled = example().get(slot).map(Fields::record);
        assert_eq!(stored(&good, slot), filled.ok_or(()).or(first(7)), "{slot}");
    }
}

/// A withdrawn certificate is stored as before, but for its state.
#[test]
fn withdrawn() {
    let mut store = store_of(&example());
    for (slot, fields) in example().iter().enumerate() {
        assert_eq!(withdraw(&mut store, &fields.id.to_be_bytes()), Ok(()));
        let expected = Record {
            state: 2,
            ..fields.record()
        };
        assert_eq!(stored(&store, slot), Ok(expected), "{slot}");
    }
}

/// What goes in is stored: the fields that are read, under the id.
#[test]
fn put_in() {
    let root = common::root().octets();
    let mut store = empty_store();
    assert_eq!(install(&mut store, &root, 1), 0);
    let kept = stored(&store, 0).unwrap();
    assert_eq!(Ok(kept.id), reference::id(&root));
    assert_eq!((kept.state, kept.kind, kept.issuer), (1, 4, [0; 8]));
    assert_eq!((kept.start, kept.end), (200, 300));
    assert_eq!((kept.parity, kept.key), (0, [0x11; 32]));
    // Its issuer is the root.
    let mut authority = common::authority();
    authority.head[2..10].copy_from_slice(&kept.id);
    assert_eq!(admit(&mut store, &authority.octets(), 1), 0);
    assert_eq!(stored(&store, 0), Ok(kept));
    let below = stored(&store, 1).unwrap();
    assert_eq!(Ok(below.id), reference::id(&authority.octets()));
    assert_eq!(
        (below.issuer, below.kind, below.name()),
        (kept.id, 2, &b"B1"[..])
    );
    assert_eq!(below.permissions(), [36]);
    assert_eq!(stored(&store, 2), Err(7));
}
