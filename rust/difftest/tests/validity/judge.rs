//! Asks both sides whether a store is valid.

use nattveldi::raw::{self, LIST_LENGTH, STORED_LENGTH};

const BAD_STORE: u8 = 2;
const CUT: u8 = 4;

/// Whether a store is valid; library and reference must agree. To install an
/// empty certificate is answered 2 in a bad store, and else that the
/// certificate is cut. What looks into a store answers 2 in a bad one alone.
pub fn is_valid(store: &[u8], what: &str) -> bool {
    let mut given = store.to_vec();
    let library = raw::install(&mut given, &[], 1);
    assert!(given == store, "{what}: a refusal changed the store");
    let valid = reference::store_is_valid(store);
    let expected = if valid { CUT } else { BAD_STORE };
    assert_eq!(library, expected, "{what}: library against reference");
    let stored = raw::stored(store, 0, &mut [0; STORED_LENGTH]);
    assert_eq!(stored != BAD_STORE, valid, "{what}: stored {stored}");
    let standing = raw::standing(store, 0, &mut [0; LIST_LENGTH]);
    let is_bad = standing == -i32::from(BAD_STORE);
    assert_eq!(!is_bad, valid, "{what}: standing {standing}");
    valid
}
