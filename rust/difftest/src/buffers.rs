//! Buffers that the caller lends, and stores that a call only reads.

use std::hint::black_box;

/// Two fills, so that an octet which is not written shows in one of them.
pub const FILLS: [u8; 2] = [0x5a, 0xa5];
/// By how much a buffer is longer than it need be.
pub const LONGER: [usize; 4] = [0, 1, 9, 1_000];

/// Makes a call on a copy of a store, which must be as it was afterwards.
pub fn unchanged<T>(store: &[u8], call: impl FnOnce(&[u8]) -> T) -> T {
    let mut copy = store.to_vec();
    let answer = call(&copy);
    assert!(black_box(&mut copy) == store, "the store was changed");
    answer
}
