//! `nattveldi_stored` and `nattveldi_standing`, called from C on buffers and
//! slots of every length that matters.

use std::path::{Path, PathBuf};

use nattveldi::raw::{admit, install, withdraw};
use nattveldi::STORE_LENGTH;

use crate::programs::{build_beside, example, run_on};

/// What `overview.c` fills its buffer with, and how long that is.
const FILL: u8 = 0xa5;
const BUFFER_LENGTH: usize = 300;

/// Worked out by hand from the comments of `root.hex`, `(N)` for N zero octets;
/// the id is from `sha256sum`. Three years are 94,670,775 seconds.
const ROOT: &str = "
    1e38b1de3f581532 (8) 00000001 00000004 29679c00 000000002f0c2bb7
    00000004 726f6f74 (28)
    00000001 6b17d1f2e12c4247f8bce6e563a440f277037d812deb33a0f4a13945d898c296
    00000001 280de800 f09f3b80 259c4bc0 f89be900 (48)
    00000002 00000024 00000025 (56)";

/// The same of `unit.hex`.
const UNIT: &str = "
    30e658f573ab3a01 1e38b1de3f581532 00000001 00000001 29679c00 000000002970d680
    00000007 756e6974203138 (25)
    00000001 6b17d1f2e12c4247f8bce6e563a440f277037d812deb33a0f4a13945d898c296
    00000001 26442480 f2d3cec0 2625a000 f3201a00 (48)
    00000001 00000024 (60)";

fn program(test: &str) -> PathBuf {
    build_beside("overview.c", test)
}

/// A root in slot 0 and a unit in slot 1.
fn store() -> Vec<u8> {
    let mut store = vec![0; STORE_LENGTH];
    assert_eq!(install(&mut store, &example("root.hex"), 1), 0);
    assert_eq!(admit(&mut store, &example("unit.hex"), 1), 0);
    store
}

/// With an octet of an empty slot set.
fn bad_store() -> Vec<u8> {
    let mut store = store();
    *store.last_mut().expect("octets") = 1;
    store
}

fn octets(text: &str) -> Vec<u8> {
    let digits: String = text.split_whitespace().collect();
    difftest::hex::octets(&digits).expect("hex text")
}

/// Fails unless the call answers this, and writes this to the front of the
/// buffer and nothing behind it.
fn check(program: &Path, words: [&str; 3], store: &[u8], answer: i32, front: &[u8]) {
    let output = run_on(program, &words, store);
    let said = String::from_utf8(output.stdout).expect("text");
    let mut buffer = vec![FILL; BUFFER_LENGTH];
    buffer[..front.len()].copy_from_slice(front);
    let expected = format!("{answer} {}\n", difftest::hex::text(&buffer));
    assert_eq!(said, expected, "{words:?}");
    assert_eq!(output.status.code(), Some(0));
}

#[test]
fn stored_fills_244_octets() {
    let (program, mut store) = (program("stored-fills-244-octets"), store());
    let [root, unit] = [ROOT, UNIT].map(octets);
    assert_eq!((root.len(), unit.len()), (244, 244));
    for length in ["244", "245", "300"] {
        check(&program, ["stored", "0", length], &store, 0, &root);
        check(&program, ["stored", "1", length], &store, 0, &unit);
    }
    assert_eq!(withdraw(&mut store, &root[..8]), 0);
    let withdrawn = [&root[..19], &[2], &root[20..]].concat();
    check(&program, ["stored", "0", "244"], &store, 0, &withdrawn);
    check(&program, ["stored", "1", "244"], &store, 0, &unit);
}

/// Slot 0 is filled, so a slot that lost its high bits would be answered.
#[test]
fn stored_refuses() {
    let (program, store) = (program("stored-refuses"), store());
    let most = usize::MAX.to_string();
    let above = ["64", "255", "256", "65536", "4294967296", &most];
    for slot in above {
        check(&program, ["stored", slot, "244"], &store, 1, &[]);
        check(&program, ["stored", slot, "244"], &bad_store(), 1, &[]);
    }
    for length in ["0", "1", "243"] {
        for slot in ["0", "2", "64"] {
            check(&program, ["stored", slot, length], &store, 1, &[]);
            check(&program, ["stored", slot, length], &bad_store(), 1, &[]);
        }
    }
    let longer = [&store[..], &[0]].concat();
    for other in [&store[1..], &longer, &[]] {
        check(&program, ["stored", "0", "244"], other, 1, &[]);
    }
    for slot in ["0", "2", "63"] {
        check(&program, ["stored", slot, "244"], &bad_store(), 2, &[]);
    }
    for slot in ["2", "62", "63"] {
        check(&program, ["stored", slot, "244"], &store, 7, &[]);
    }
}

/// The unit's period ends before the root's, at 695,260,800; the root's starts
/// at 694,656,000.
#[test]
fn standing_fills_the_front() {
    let (program, mut store) = (program("standing-fills-the-front"), store());
    for (second, slots) in [
        ("0", &[][..]),
        ("694655999", &[]),
        ("694656000", &[0, 1]),
        ("695260799", &[0, 1]),
        ("695260800", &[0]),
        ("4294967295", &[]),
    ] {
        for length in ["64", "65", "300"] {
            let n = slots.len() as i32;
            check(&program, ["standing", second, length], &store, n, slots);
        }
    }
    assert_eq!(withdraw(&mut store, &octets(ROOT)[..8]), 0);
    check(&program, ["standing", "694656000", "64"], &store, 0, &[]);
}

#[test]
fn standing_refuses() {
    let (program, store) = (program("standing-refuses"), store());
    for length in ["0", "2", "63"] {
        for store in [&store, &bad_store()] {
            check(&program, ["standing", "694656000", length], store, -1, &[]);
        }
    }
    let longer = [&store[..], &[0]].concat();
    for other in [&store[1..], &longer, &[]] {
        check(&program, ["standing", "694656000", "64"], other, -1, &[]);
    }
    let bad = bad_store();
    check(&program, ["standing", "694656000", "64"], &bad, -2, &[]);
}
