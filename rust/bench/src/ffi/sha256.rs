//! The proved SHA-256.

/// Whether the archive was there when this was built.
pub const LINKED: bool = cfg!(sha256_c);

#[cfg(sha256_c)]
mod c {
    extern "C" {
        pub fn sha256_digest(
            message: *const u8,
            message_length: usize,
            digest: *mut u8,
            digest_length: usize,
        ) -> u8;
    }
}

/// Writes the digest to the first 32 octets of a buffer and answers 0, or
/// answers 1 if the buffer is shorter.
#[cfg(sha256_c)]
pub fn digest(message: &[u8], digest: &mut [u8]) -> u8 {
    // SAFETY: each pointer comes from a slice together with its length, the
    // buffer is borrowed alone, and the library keeps no pointer.
    unsafe {
        c::sha256_digest(
            message.as_ptr(),
            message.len(),
            digest.as_mut_ptr(),
            digest.len(),
        )
    }
}

#[cfg(not(sha256_c))]
pub fn digest(_: &[u8], _: &mut [u8]) -> u8 {
    unreachable!("nothing is hashed unless LINKED")
}
