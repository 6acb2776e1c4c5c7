//! The list once more, slowly and by its words, on stores of chains made at random.

mod common;

use common::chains::*;
use common::stores::*;
use reference::{list, standing, store_is_valid, walk, withdraw};

type Place = Option<(i32, i32)>;

/// Document 01, "How a chain is walked", on the numbers of the slots: the answer's number.
fn slow_walk(stored: &[Fields], of: &Fields, second: u64, place: Place, number: usize) -> u8 {
    let region = &of.rectangles[..of.rectangle_count as usize];
    let holds = |(latitude, longitude): (i32, i32)| {
        region.iter().any(|[north, west, south, east]| {
            south <= &latitude && &latitude <= north && west <= &longitude && &longitude <= east
        })
    };
    if of.state == 2 {
        return 8;
    }
    if second < of.start || second >= of.end {
        return 12;
    }
    if !region.is_empty() && !place.is_none_or(holds) {
        return 13;
    }
    if of.kind == 4 {
        return 0;
    }
    if number == 8 {
        return 18;
    }
    let Some(issuer) = stored.iter().find(|other| other.id == of.issuer) else {
        return 7;
    };
    if issuer.kind == 1 {
        return 10;
    }
    let permissions = |fields: &Fields| {
        let used = fields.permissions[..fields.permission_count as usize].iter();
        used.copied().collect::<std::collections::BTreeSet<u64>>()
    };
    if !permissions(of).is_subset(&permissions(issuer)) {
        return 11;
    }
    if of.start < issuer.start || of.end > issuer.end {
        return 12;
    }
    let outer = &issuer.rectangles[..issuer.rectangle_count as usize];
    let inside = |[north, west, south, east]: &[i32; 4]| {
        outer
            .iter()
            .any(|[n, w, s, e]| n >= north && w <= west && s <= south && e >= east)
    };
    if !outer.is_empty() && (region.is_empty() || !region.iter().all(inside)) {
        return 13;
    }
    slow_walk(stored, issuer, second, place, number + 1)
}

/// The slots that stand.
fn slow_standing(stored: &[Fields], second: u64) -> Vec<usize> {
    let stands = |slot: &usize| slow_walk(stored, &stored[*slot], second, None, 1) == 0;
    (0..stored.len()).filter(stands).collect()
}

/// The slots that the reference lists as standing.
fn listed_standing(store: &[u8], second: u32) -> Vec<usize> {
    let mut list = [0xaa; 64];
    let n = standing(store, second, &mut list).unwrap();
    list[..n].iter().map(|slot| usize::from(*slot)).collect()
}

/// One of several, most often the first.
fn mostly<T: Copy>(numbers: &mut Numbers, of: &[T]) -> T {
    match numbers.below(50) as usize {
        number if number < of.len() => of[number],
        _ => of[0],
    }
}

/// A certificate that is most often good under any other; its issuer is one of the `count` ids.
fn some_fields(numbers: &mut Numbers, id: u64, count: u64) -> Fields {
    let kind = [4, 1, 2, 2, 2, 2, 2, 2][numbers.below(8) as usize];
    let any = numbers.below(count + 2);
    let issuer = mostly(numbers, &[id - 1, any]);
    let mut fields = authority(id, issuer);
    if kind == 4 {
        fields = root(id);
    }
    fields.kind = kind;
    fields.state = mostly(numbers, &[1, 2]);
    fields.end = mostly(numbers, &[900, 890, 910, 251]);
    fields.start = mostly(numbers, &[100, 101, 99, 250]);
    let (count, permissions) = mostly(numbers, &[(1, [36, 0]), (2, [37, 36]), (0, [0, 0])]);
    fields.permission_count = count;
    fields.permissions[..2].copy_from_slice(&permissions);
    let region = [[9, -9, -9, 9], [8, -9, -9, 9], [9, -9, -9, -1]];
    let used = mostly(numbers, &[0, 1, 2, 3]);
    fields.rectangle_count = used as u64;
    for rectangle in &mut fields.rectangles[..used] {
        *rectangle = mostly(numbers, &region);
    }
    fields
}

fn some_store(numbers: &mut Numbers) -> Vec<Fields> {
    let count = 1 + numbers.below(64);
    let mut stored: Vec<Fields> = (1..=count)
        .map(|id| some_fields(numbers, id, count))
        .collect();
    // Some stores have one region for most, so that bounded issuers have bounded subjects.
    if numbers.below(3) == 0 {
        for fields in &mut stored {
            if numbers.below(10) != 0 {
                (fields.rectangle_count, fields.rectangles) = (1, [[0; 4]; 4]);
                fields.rectangles[0] = [9, -9, -9, 9];
            }
        }
    }
    for slot in 0..stored.len() {
        stored.swap(slot, numbers.below(count) as usize);
    }
    stored
}

#[test]
fn walks() {
    let mut numbers = Numbers(0x0246_8ace_1357_9bdf);
    let mut seen = [0; 19];
    for _ in 0..400 {
        let stored = some_store(&mut numbers);
        let store = store_of(&stored);
        assert!(store_is_valid(&store));
        for fields in &stored {
            let place = [None, Some((9, 9)), Some((0, 0)), Some((-9, -10))];
            let place = place[numbers.below(4) as usize];
            let second = mostly(&mut numbers, &[250, 249, 100, 899, (1 << 32) + 250]);
            let signer = reference::decode(&fields.slot());
            let found = walk(&store, &signer, second, place).err().unwrap_or(0);
            let expected = slow_walk(&stored, fields, second, place, 1);
            assert_eq!(found, expected);
            seen[usize::from(expected)] += 1;
        }
    }
    for number in [0, 7, 8, 10, 11, 12, 13, 18] {
        assert!(seen[number] > 100, "{number}: {seen:?}");
    }
}

/// "Before" is the store that both get, "after" the one that withdraw leaves; "if the certificate
/// doesn't stand at the second, n is 0".
#[test]
fn lists() {
    let mut numbers = Numbers(0x7531_fdb9_eca8_6420);
    let mut seen = [0; 4];
    for _ in 0..400 {
        let mut stored = some_store(&mut numbers);
        let store = store_of(&stored);
        let asked = numbers.below(stored.len() as u64) as usize;
        let second = mostly(&mut numbers, &[250, 249, 100, 899]);
        let id = stored[asked].id.to_be_bytes();
        let mut octets = [0xaa; 64];
        let found = list(&store, &id, second, &mut octets);
        let mut after = store.clone();
        if stored[asked].state == 2 {
            assert_eq!(found, Err(8));
            assert_eq!(withdraw(&mut after, &id), Err(8));
            continue;
        }
        let before_standing = slow_standing(&stored, u64::from(second));
        assert_eq!(listed_standing(&store, second), before_standing);
        stored[asked].state = 2;
        let after_standing = slow_standing(&stored, u64::from(second));
        assert_eq!(withdraw(&mut after, &id), Ok(()));
        assert!(after == store_of(&stored));
        assert_eq!(listed_standing(&after, second), after_standing);
        let expected: Vec<u8> = (before_standing.iter())
            .filter(|slot| !after_standing.contains(slot))
            .map(|slot| *slot as u8)
            .collect();
        assert_eq!(found, Ok(expected.len()));
        assert_eq!(octets[..expected.len()], expected);
        assert!(octets[expected.len()..].iter().all(|octet| *octet == 0xaa));
        assert_eq!(expected.is_empty(), !before_standing.contains(&asked));
        seen[expected.len().min(3)] += 1;
    }
    assert!(seen.iter().all(|count| *count > 20), "{seen:?}");
}
