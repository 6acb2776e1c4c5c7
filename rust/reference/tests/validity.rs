//! Each rule that a valid store keeps (document 01, "The store"; open points 20 to 22).

mod common;

use common::stores::*;
use reference::{store_is_valid, SLOTS, SLOT_LENGTH, STORE_LENGTH};

/// Whether a store is valid that holds this slot alone, fifth.
fn slot_is_valid(slot: &[u8; SLOT_LENGTH]) -> bool {
    let mut store = empty_store();
    set_slot(&mut store, 4, slot);
    store_is_valid(&store)
}

/// The same of a record that `change` makes of a good one; held and withdrawn must agree.
fn is_valid(change: impl Fn(&mut Fields)) -> bool {
    let [held, withdrawn] = [1, 2].map(|state| {
        let mut fields = Fields::with_counts(9, 4, 2, 3);
        fields.state = state;
        change(&mut fields);
        slot_is_valid(&fields.slot())
    });
    assert_eq!(held, withdrawn);
    held
}

#[test]
fn length() {
    for length in [0, 1, 212, STORE_LENGTH - 212, STORE_LENGTH - 1] {
        assert!(!store_is_valid(&vec![0; length]), "{length}");
    }
    assert!(store_is_valid(&empty_store()));
    assert!(!store_is_valid(&vec![0; STORE_LENGTH + 1]));
    assert!(!store_is_valid(&vec![0; STORE_LENGTH + 212]));
    assert!(store_is_valid(&full_store()));
}

#[test]
fn a_good_record_is_valid_and_a_broken_one_is_found_in_every_slot() {
    let good = Fields::with_counts(9, 32, 4, 16);
    let broken = Fields {
        padding: 1,
        ..good.clone()
    };
    for number in 0..SLOTS {
        for mut store in [empty_store(), full_store()] {
            set_slot(&mut store, number, &good.slot());
            assert!(store_is_valid(&store));
            set_slot(&mut store, number, &broken.slot());
            assert!(!store_is_valid(&store));
        }
    }
}

/// "An empty slot is all zero": with any one bit it is bad, or filled without a kind.
#[test]
fn no_bit_of_an_empty_slot() {
    for bit in 0..8 * SLOT_LENGTH {
        let mut slot = [0; SLOT_LENGTH];
        flip(&mut slot, bit);
        assert!(!slot_is_valid(&slot), "{bit}");
    }
    let mut emptied = Fields::new(9);
    emptied.state = 0;
    assert!(!slot_is_valid(&emptied.slot()));
}

#[test]
fn states_and_kinds() {
    for (state, valid) in [(0, false), (1, true), (2, true), (3, false)] {
        let mut fields = Fields::new(9);
        fields.state = state;
        assert_eq!(slot_is_valid(&fields.slot()), valid, "{state}");
    }
    for kind in 0..8 {
        let valid = [1, 2, 4].contains(&kind);
        let change = |fields: &mut Fields| (fields.kind, fields.issuer) = (kind, 0);
        assert_eq!(is_valid(change), valid, "{kind}");
    }
}

/// "Issuer 64 (zero for a root)"; others may have issuer zero, and any may have id zero.
#[test]
fn issuers_and_ids() {
    for bit in 0..64 {
        for (kind, valid) in [(1, true), (2, true), (4, false)] {
            let change = |fields: &mut Fields| (fields.kind, fields.issuer) = (kind, 1 << bit);
            assert_eq!(is_valid(change), valid, "{kind} {bit}");
        }
        assert!(is_valid(|fields| fields.id = 1 << bit));
    }
    assert!(is_valid(|fields| fields.id = 0));
    assert!(is_valid(|fields| fields.issuer = fields.id));
}

#[test]
fn periods() {
    let valid = |start, end| is_valid(|fields| (fields.start, fields.end) = (start, end));
    assert!(valid(0, 1));
    assert!(!valid(0, 0));
    assert!(valid(100, 101));
    assert!(!valid(100, 100));
    assert!(!valid(101, 100));
    assert!(valid(u64::from(u32::MAX), 1 << 32));
    assert!(!valid(u64::from(u32::MAX), u64::from(u32::MAX)));
    assert!(valid(0, LATEST_END));
    assert!(valid(u64::from(u32::MAX), LATEST_END));
    assert!(!valid(0, LATEST_END + 1));
    assert!(!valid(0, (1 << 38) - 1));
    // No form of period gives this end, and none is asked for.
    assert!(valid(0, LATEST_END - 1));
}

#[test]
fn counts() {
    for length in 0..64 {
        assert_eq!(
            is_valid(|fields| (fields.name_length, fields.name) = (length, [0; 32])),
            length <= 32,
            "{length}"
        );
    }
    for count in 0..8 {
        let change = |fields: &mut Fields| {
            fields.rectangle_count = count;
            fields.rectangles = [[0; 4]; 4];
            fields.rectangles[..count.min(4) as usize].fill([1, 0, 0, 1]);
        };
        assert_eq!(is_valid(change), count <= 4, "{count}");
    }
    for count in 0..32 {
        let change =
            |fields: &mut Fields| (fields.permission_count, fields.permissions) = (count, [0; 16]);
        assert_eq!(is_valid(change), count <= 16, "{count}");
    }
}

/// The last bits of a slot are "padding 6", and zero.
#[test]
fn padding() {
    for padding in 0..64 {
        assert_eq!(is_valid(|fields| fields.padding = padding), padding == 0);
    }
}

#[test]
fn rectangles_each_in_each_place() {
    for place in 0..4 {
        let valid = |edges: [i32; 4]| {
            is_valid(|fields| {
                fields.rectangle_count = 4;
                fields.rectangles = [[1, 0, 0, 1]; 4];
                fields.rectangles[place] = edges;
            })
        };
        assert!(valid([
            900_000_000,
            -1_800_000_000,
            -900_000_000,
            1_800_000_000
        ]));
        assert!(!valid([900_000_001, 0, 0, 1]));
        assert!(!valid([0, -1_800_000_001, -1, 1]));
        assert!(!valid([0, 0, -900_000_001, 1]));
        assert!(!valid([1, 0, 0, 1_800_000_001]));
        assert!(!valid([i32::MAX, 0, 0, 1]) && !valid([1, i32::MIN, 0, 1]));
        assert!(!valid([1, 0, i32::MIN, 1]) && !valid([1, 0, 0, i32::MAX]));
        // North above south, east above west, as signed numbers.
        assert!(valid([0, -1, -1, 0]));
        assert!(!valid([5, 0, 5, 1]) && !valid([-1, 0, 0, 1]) && !valid([4, 0, 5, 1]));
        assert!(!valid([1, 5, 0, 5]) && !valid([1, 0, 0, -1]) && !valid([1, 5, 0, 4]));
        assert!(!valid([0, 0, 0, 0]));
    }
}

/// Every bit of a field's room: free where used, zero where not. Used rectangles are not free.
#[test]
fn unused_room_bit_by_bit() {
    for (name, rectangles, permissions) in (0..=32).map(|n| (n, n % 5, n % 17)) {
        let good = Fields::with_counts(9, name, rectangles, permissions).slot();
        assert!(slot_is_valid(&good));
        let check = |field: usize, used: usize, used_is_free: bool| {
            for bit in 0..WIDTHS[field] {
                let mut slot = good;
                flip(&mut slot, first_bit(field) + bit);
                if bit >= used || used_is_free {
                    assert_eq!(slot_is_valid(&slot), bit < used, "{field} {bit} {used}");
                }
            }
        };
        check(ISSUER_FIELD, 64, true);
        check(NAME_FIELD, 8 * name, true);
        check(NAME_FIELD + 1, 1, true);
        check(KEY_FIELD, 256, true);
        check(RECTANGLES_FIELD, 128 * rectangles, false);
        check(PERMISSIONS_FIELD, 28 * permissions, true);
        check(PADDING_FIELD, 0, true);
    }
}

/// "Two filled slots share an id": held or withdrawn, and wherever they are.
#[test]
fn shared_ids() {
    let full = full_store();
    for low in 0..SLOTS {
        for high in low + 1..SLOTS {
            let mut store = full.clone();
            let id = 1_000 + low as u64;
            let mut fields = Fields::with_counts(id, low % 33, high % 5, 1);
            fields.state = 1 + (high % 2) as u64;
            set_slot(&mut store, high, &fields.slot());
            assert!(!store_is_valid(&store), "{low} {high}");
        }
    }
    assert!(store_is_valid(&store_of(&[0, 1].map(Fields::new))));
    assert!(!store_is_valid(&store_of(&[0, 0].map(Fields::new))));
}

/// Ids that differ little, or in one place only, are still other ids.
#[test]
fn ids_alike_are_not_shared() {
    let spread = |id: fn(u64) -> u64| {
        let slots: Vec<Fields> = (0..64).map(|n| Fields::new(id(n))).collect();
        let mut store = store_of(&slots);
        assert!(store_is_valid(&store));
        set_slot(&mut store, 63, &slots[31].slot());
        assert!(!store_is_valid(&store));
    };
    spread(|n| n);
    spread(|n| n << 58);
    spread(|n| n << 32);
    spread(|n| 1 << n);
    spread(|n| !(1 << n));
    spread(|n| n * 0x0101_0101_0101_0101);
    // A neighbour's issuer is no id.
    let mut child = Fields::new(2);
    child.issuer = 1;
    assert!(store_is_valid(&store_of(&[Fields::new(1), child])));
}
