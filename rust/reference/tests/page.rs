//! The text of the program `page` (document 01, "The page program"; open point 32).

mod common;

use common::chains::*;
use common::stores::*;
use reference::page;

fn input(store: &[u8], id: u64, second: u32) -> Vec<u8> {
    [store, &id.to_be_bytes(), &second.to_be_bytes()].concat()
}

fn text(store: &[u8], id: u64, second: u32) -> String {
    String::from_utf8(page(&input(store, id, second))).unwrap()
}

#[test]
fn the_example_to_the_letter() {
    assert_eq!(
        text(&store_of(&example()), eight_times(2), 220),
        "withdraw 0202020202020202 at 220\n\
         1 0202020202020202 authority 4231\n\
         2 0303030303030303 ticket -\n\
         2 certificates\n"
    );
}

#[test]
fn a_root_and_all_below_it() {
    assert_eq!(
        text(&store_of(&example()), eight_times(1), 250),
        "withdraw 0101010101010101 at 250\n\
         0 0101010101010101 root -\n\
         1 0202020202020202 authority 4231\n\
         2 0303030303030303 ticket -\n\
         3 0404040404040404 ticket -\n\
         4 0505050505050505 authority 4231\n\
         5 0606060606060606 ticket -\n\
         6 certificates\n"
    );
}

/// "The count, always with `certificates`."
#[test]
fn one_and_none() {
    let store = store_of(&example());
    assert_eq!(
        text(&store, eight_times(3), 299),
        "withdraw 0303030303030303 at 299\n\
         2 0303030303030303 ticket -\n\
         1 certificates\n"
    );
    assert_eq!(
        text(&store, eight_times(3), 300),
        "withdraw 0303030303030303 at 300\n0 certificates\n"
    );
}

/// Lowercase hex with leading zeros, a second of 32 bits, a slot of two digits, the longest name.
#[test]
fn numbers_and_names() {
    let mut fields = root(0x0001_23ab_cdef_00ff);
    fields.end = LATEST_END;
    fields.name_length = 32;
    fields.name = std::array::from_fn(|number| 255 - number as u8);
    let mut store = empty_store();
    set_slot(&mut store, 63, &fields.slot());
    assert_eq!(
        text(&store, fields.id, u32::MAX),
        "withdraw 000123abcdef00ff at 4294967295\n\
         63 000123abcdef00ff root \
         fffefdfcfbfaf9f8f7f6f5f4f3f2f1f0efeeedecebeae9e8e7e6e5e4e3e2e1e0\n\
         1 certificates\n"
    );
    // A name of one zero octet is a name.
    (fields.name_length, fields.name, fields.start) = (1, [0; 32], 0);
    set_slot(&mut store, 63, &fields.slot());
    assert_eq!(
        text(&store, fields.id, 0),
        "withdraw 000123abcdef00ff at 0\n\
         63 000123abcdef00ff root 00\n\
         1 certificates\n"
    );
}

/// "13,580 octets. Any other length prints `refused 1`", before anything in the store is judged.
#[test]
fn lengths() {
    let good = input(&store_of(&example()), eight_times(2), 220);
    let bad = vec![0xff; 13_590];
    for length in [0, 1, 8, 12, 13_567, 13_568, 13_576, 13_579] {
        assert_eq!(page(&good[..length]), b"refused 1\n", "{length}");
        assert_eq!(page(&bad[..length]), b"refused 1\n", "{length}");
    }
    assert_eq!(page(&[&good[..], &[0]].concat()), b"refused 1\n");
    assert_eq!(page(&bad), b"refused 1\n");
    assert_eq!(page(&bad[..13_580]), b"refused 2\n");
}

#[test]
fn refusals() {
    let mut slots = example();
    assert_eq!(text(&store_of(&slots), 7, 220), "refused 7\n");
    assert_eq!(text(&empty_store(), 0, 220), "refused 7\n");
    slots[1].state = 2;
    let mut store = store_of(&slots);
    assert_eq!(text(&store, eight_times(2), 220), "refused 8\n");
    store[13_567] = 1;
    assert_eq!(text(&store, eight_times(2), 220), "refused 2\n");
}
