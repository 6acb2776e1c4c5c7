//! The functions of `include/nattveldi.h`. All unsafe code stands here.

use crate::raw::Situation;

mod c {
    extern "C" {
        pub fn nattveldi_read(
            certificate: *const u8,
            certificate_length: usize,
            fields: *mut u8,
            fields_length: usize,
        ) -> u8;

        pub fn nattveldi_id(
            certificate: *const u8,
            certificate_length: usize,
            id: *mut u8,
            id_length: usize,
        ) -> u8;

        pub fn nattveldi_install(
            store: *mut u8,
            store_length: usize,
            certificate: *const u8,
            certificate_length: usize,
            verdict: u8,
        ) -> u8;

        pub fn nattveldi_admit(
            store: *mut u8,
            store_length: usize,
            certificate: *const u8,
            certificate_length: usize,
            verdict: u8,
        ) -> u8;

        pub fn nattveldi_stored(
            store: *const u8,
            store_length: usize,
            slot: usize,
            stored: *mut u8,
            stored_length: usize,
        ) -> u8;

        pub fn nattveldi_standing(
            store: *const u8,
            store_length: usize,
            second: u32,
            list: *mut u8,
            list_length: usize,
        ) -> i32;

        pub fn nattveldi_list(
            store: *const u8,
            store_length: usize,
            id: *const u8,
            id_length: usize,
            second: u32,
            list: *mut u8,
            list_length: usize,
        ) -> i32;

        pub fn nattveldi_withdraw(
            store: *mut u8,
            store_length: usize,
            id: *const u8,
            id_length: usize,
        ) -> u8;

        pub fn nattveldi_page(
            input: *const u8,
            input_length: usize,
            text: *mut u8,
            text_length: usize,
        ) -> u32;

        pub fn nattveldi_prepare(
            store: *const u8,
            store_length: usize,
            message: *const u8,
            message_length: usize,
            now: u64,
            latitude: i32,
            longitude: i32,
            age: u64,
            questions: *mut u8,
            questions_length: usize,
        ) -> u8;

        pub fn nattveldi_decide(
            store: *const u8,
            store_length: usize,
            message: *const u8,
            message_length: usize,
            now: u64,
            latitude: i32,
            longitude: i32,
            age: u64,
            verdict: u8,
            certificate_verdict: u8,
            decision: *mut u8,
            decision_length: usize,
        ) -> u8;
    }
}

// SAFETY of all calls: each pointer comes from a slice together with its
// length, a buffer that is written is borrowed alone, so that it overlaps no
// other argument, and the library keeps no pointer.

/// Reads a certificate and writes its fields to the first 360 octets of
/// `fields`; the octets after them are unchanged. Returns 1 if `fields` has
/// fewer. A refusal leaves `fields` unchanged.
///
/// ```
/// let mut fields = [7; 359];
/// assert_eq!(nattveldi::raw::read(&[], &mut fields), 1);
/// assert_eq!(fields, [7; 359]);
/// ```
#[must_use]
pub fn read(certificate: &[u8], fields: &mut [u8]) -> u8 {
    unsafe {
        c::nattveldi_read(
            certificate.as_ptr(),
            certificate.len(),
            fields.as_mut_ptr(),
            fields.len(),
        )
    }
}

/// Works out the id of a certificate and writes it to the first 8 octets of
/// `id`; the octets after them are unchanged. Returns 1 if `id` has fewer. A
/// refusal leaves `id` unchanged.
///
/// ```
/// let mut id = [7; 9];
/// assert_eq!(nattveldi::raw::id(&[], &mut id), 4);
/// assert_eq!(id, [7; 9]);
/// ```
#[must_use]
pub fn id(certificate: &[u8], id: &mut [u8]) -> u8 {
    unsafe {
        c::nattveldi_id(
            certificate.as_ptr(),
            certificate.len(),
            id.as_mut_ptr(),
            id.len(),
        )
    }
}

/// Installs a root in the lowest empty slot of `store`. Returns 1 if `store`
/// has not 13,568 octets. A refusal leaves `store` unchanged.
///
/// ```
/// let mut store = [7; 100];
/// assert_eq!(nattveldi::raw::install(&mut store, &[], 1), 1);
/// assert_eq!(store, [7; 100]);
/// ```
#[must_use]
pub fn install(store: &mut [u8], certificate: &[u8], verdict: u8) -> u8 {
    unsafe {
        c::nattveldi_install(
            store.as_mut_ptr(),
            store.len(),
            certificate.as_ptr(),
            certificate.len(),
            verdict,
        )
    }
}

/// Admits a ticket or an authority to the lowest empty slot of `store`. Returns
/// 1 if `store` has not 13,568 octets. A refusal leaves `store` unchanged.
///
/// ```
/// let mut store = [0; nattveldi::STORE_LENGTH];
/// assert_eq!(nattveldi::raw::admit(&mut store, &[], 1), 4);
/// assert_eq!(store, [0; nattveldi::STORE_LENGTH]);
/// ```
#[must_use]
pub fn admit(store: &mut [u8], certificate: &[u8], verdict: u8) -> u8 {
    unsafe {
        c::nattveldi_admit(
            store.as_mut_ptr(),
            store.len(),
            certificate.as_ptr(),
            certificate.len(),
            verdict,
        )
    }
}

/// Writes what a slot of a store holds to the first 244 octets of `stored`; the
/// octets after them are unchanged. Returns 1 if `stored` has fewer, `store`
/// has not 13,568 octets, or the slot is above 63; 7 if the slot is empty. A
/// refusal leaves `stored` unchanged.
///
/// ```
/// let (empty, mut stored) = ([0; nattveldi::STORE_LENGTH], [7; 244]);
/// assert_eq!(nattveldi::raw::stored(&empty, 63, &mut stored), 7);
/// assert_eq!(nattveldi::raw::stored(&empty, 64, &mut stored), 1);
/// assert_eq!(stored, [7; 244]);
/// ```
#[must_use]
pub fn stored(store: &[u8], slot: usize, stored: &mut [u8]) -> u8 {
    unsafe {
        c::nattveldi_stored(
            store.as_ptr(),
            store.len(),
            slot,
            stored.as_mut_ptr(),
            stored.len(),
        )
    }
}

/// Writes the slot numbers of the certificates that stand at a second,
/// ascending, to the first octets of `list`; the octets after them are
/// unchanged. Returns how many they are, or minus the number of a refusal: -1
/// if `list` has fewer than 64 octets or `store` not 13,568. A refusal leaves
/// `list` unchanged.
///
/// ```
/// let (empty, mut list) = ([0; nattveldi::STORE_LENGTH], [7; 64]);
/// assert_eq!(nattveldi::raw::standing(&empty, 220, &mut list), 0);
/// assert_eq!(nattveldi::raw::standing(&[], 220, &mut list), -1);
/// assert_eq!(list, [7; 64]);
/// ```
#[must_use]
pub fn standing(store: &[u8], second: u32, list: &mut [u8]) -> i32 {
    unsafe {
        c::nattveldi_standing(
            store.as_ptr(),
            store.len(),
            second,
            list.as_mut_ptr(),
            list.len(),
        )
    }
}

/// Writes the slot numbers of the certificates that stand at a second and would
/// not if the one with `id` were withdrawn, ascending, to the first octets of
/// `list`; the octets after them are unchanged. Returns how many they are, or
/// minus the number of a refusal: -1 if `store` has not 13,568 octets, `id` not
/// 8, or `list` fewer than 64. A refusal leaves `list` unchanged.
///
/// ```
/// let (empty, mut list) = ([0; nattveldi::STORE_LENGTH], [7; 64]);
/// assert_eq!(nattveldi::raw::list(&empty, &[1; 8], 220, &mut list), -7);
/// assert_eq!(list, [7; 64]);
/// ```
#[must_use]
pub fn list(store: &[u8], id: &[u8], second: u32, list: &mut [u8]) -> i32 {
    unsafe {
        c::nattveldi_list(
            store.as_ptr(),
            store.len(),
            id.as_ptr(),
            id.len(),
            second,
            list.as_mut_ptr(),
            list.len(),
        )
    }
}

/// Withdraws the certificate with `id`. Returns 1 if `store` has not 13,568
/// octets or `id` not 8. A refusal leaves `store` unchanged.
///
/// ```
/// let mut store = [0; nattveldi::STORE_LENGTH];
/// assert_eq!(nattveldi::raw::withdraw(&mut store, &[1; 9]), 1);
/// assert_eq!(nattveldi::raw::withdraw(&mut store, &[1; 8]), 7);
/// assert_eq!(store, [0; nattveldi::STORE_LENGTH]);
/// ```
#[must_use]
pub fn withdraw(store: &mut [u8], id: &[u8]) -> u8 {
    unsafe { c::nattveldi_withdraw(store.as_mut_ptr(), store.len(), id.as_ptr(), id.len()) }
}

/// Writes the text that the program `page` prints for an input to the first
/// octets of `text`; the octets after it are unchanged. Returns the text's
/// length, or 0 if `text` has fewer than 6,144 octets, which then are
/// unchanged.
///
/// ```
/// use nattveldi::raw::{page, PAGE_LENGTH};
///
/// let mut text = [7; PAGE_LENGTH];
/// assert_eq!(page(&[], &mut text), 10);
/// assert_eq!(text[..11], *b"refused 1\n\x07");
/// assert_eq!(page(&[], &mut text[1..]), 0);
/// ```
#[must_use]
pub fn page(input: &[u8], text: &mut [u8]) -> u32 {
    unsafe { c::nattveldi_page(input.as_ptr(), input.len(), text.as_mut_ptr(), text.len()) }
}

/// Works out what the chip is to be asked about a message, and writes it to the
/// first 104 octets of `questions`; the octets after them are unchanged.
/// Returns 1 if `questions` has fewer, else what [`decide`] does with two
/// verdicts of 1. A refusal leaves `questions` unchanged.
///
/// ```
/// use nattveldi::{raw, STORE_LENGTH};
///
/// let here = raw::Situation { now: 250_000_000, ..Default::default() };
/// let empty = [0; STORE_LENGTH];
/// let mut questions = [7; 104];
/// assert_eq!(raw::prepare(&empty, &[3], &here, &mut questions), 6);
/// assert_eq!(raw::prepare(&empty, &[3], &here, &mut questions[1..]), 1);
/// assert_eq!(questions, [7; 104]);
/// ```
#[must_use]
pub fn prepare(store: &[u8], message: &[u8], situation: &Situation, questions: &mut [u8]) -> u8 {
    unsafe {
        c::nattveldi_prepare(
            store.as_ptr(),
            store.len(),
            message.as_ptr(),
            message.len(),
            situation.now,
            situation.latitude,
            situation.longitude,
            situation.age,
            questions.as_mut_ptr(),
            questions.len(),
        )
    }
}

/// Decides a message, and writes what it says to the first 28 octets of
/// `decision`; the octets after them are unchanged. Returns 1 if `decision` has
/// fewer. A refusal leaves `decision` unchanged.
///
/// ```
/// use nattveldi::{raw, STORE_LENGTH};
///
/// let here = raw::Situation { now: 250_000_000, ..Default::default() };
/// let empty = [0; STORE_LENGTH];
/// let mut decision = [7; 28];
/// assert_eq!(raw::decide(&empty, &[3], &here, 1, 1, &mut decision), 6);
/// assert_eq!(raw::decide(&empty, &[3], &here, 1, 1, &mut decision[1..]), 1);
/// assert_eq!(decision, [7; 28]);
/// ```
#[must_use]
pub fn decide(
    store: &[u8],
    message: &[u8],
    situation: &Situation,
    verdict: u8,
    certificate_verdict: u8,
    decision: &mut [u8],
) -> u8 {
    unsafe {
        c::nattveldi_decide(
            store.as_ptr(),
            store.len(),
            message.as_ptr(),
            message.len(),
            situation.now,
            situation.latitude,
            situation.longitude,
            situation.age,
            verdict,
            certificate_verdict,
            decision.as_mut_ptr(),
            decision.len(),
        )
    }
}
