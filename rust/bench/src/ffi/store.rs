//! The proved store: its validity, and a record read and written again.

/// Whether the archive was there when this was built.
pub const LINKED: bool = cfg!(store_c);

#[cfg(store_c)]
mod c {
    extern "C" {
        pub fn store_valid(store: *const u8, length: usize) -> u8;

        pub fn store_rewrite(
            slot: *const u8,
            slot_length: usize,
            image: *mut u8,
            image_length: usize,
        ) -> u8;
    }
}

/// Answers 0 if a store is valid, 1 if it has another length than a store, 2
/// if it is bad.
#[cfg(store_c)]
pub fn valid(store: &[u8]) -> u8 {
    // SAFETY: the pointer comes from a slice together with its length, and the
    // library keeps no pointer.
    unsafe { c::store_valid(store.as_ptr(), store.len()) }
}

/// Decodes the record of a slot, writes its image and answers 0, or answers 1
/// if one of the two has another length than a slot.
#[cfg(store_c)]
pub fn rewrite(slot: &[u8], image: &mut [u8]) -> u8 {
    // SAFETY: as above, and the image is borrowed alone.
    unsafe { c::store_rewrite(slot.as_ptr(), slot.len(), image.as_mut_ptr(), image.len()) }
}

#[cfg(not(store_c))]
pub fn valid(_: &[u8]) -> u8 {
    unreachable!("nothing is judged unless LINKED")
}

#[cfg(not(store_c))]
pub fn rewrite(_: &[u8], _: &mut [u8]) -> u8 {
    unreachable!("nothing is written again unless LINKED")
}
