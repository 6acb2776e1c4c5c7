//! Values in octets that the library wrote.

use crate::certificate::Part;

/// So many octets from an offset on.
pub fn array<const N: usize>(octets: &[u8], at: usize) -> [u8; N] {
    core::array::from_fn(|i| octets[at + i])
}

/// The word at an offset: 4 octets, big-endian.
pub fn word(octets: &[u8], at: usize) -> u32 {
    u32::from_be_bytes(array(octets, at))
}

/// The double word at an offset: 8 octets, big-endian.
pub fn double_word(octets: &[u8], at: usize) -> u64 {
    u64::from_be_bytes(array(octets, at))
}

/// The part at an offset: its start and its length, a word each.
pub fn part(octets: &[u8], at: usize) -> Part {
    Part {
        start: word(octets, at) as usize,
        length: word(octets, at + 4) as usize,
    }
}

/// The count at an offset, which is at most so many.
pub fn count(octets: &[u8], at: usize, most: usize) -> usize {
    let count = word(octets, at);
    if count as usize > most {
        unfit("a count", count)
    }
    count as usize
}

/// The archive is another one than these bindings were written for.
pub fn unfit(what: &str, value: u32) -> ! {
    panic!("the archive wrote {value} for {what}, which these bindings do not know")
}
