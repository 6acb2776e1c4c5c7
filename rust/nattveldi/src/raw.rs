//! The library's functions as the C header has them: each returns a number and
//! writes to a buffer of the caller; but now, position and age come as a
//! [`Situation`]. For tests, and for callers that want the words or have a
//! buffer already.

pub use crate::ffi::{
    admit, decide, id, install, list, page, prepare, read, standing, stored, withdraw,
};

use crate::octets;

/// When and where a message is judged, and how old it may be, in plain numbers.
/// Any of them may be passed; the functions refuse those that are out of range.
///
/// ```
/// let now = 694_700_000_000_000; // microseconds: second 694,700,000
/// let here = nattveldi::raw::Situation {
///     now,
///     latitude: 641_000_000, // 64.1 degrees north ..
///     longitude: -220_000_000, // .. and 22 west
///     age: 0,
/// };
/// let anywhere = nattveldi::raw::Situation { now, ..Default::default() };
/// assert_eq!((anywhere.latitude, anywhere.longitude, anywhere.age), (0, 0, here.age));
/// ```
#[derive(Clone, Copy, Debug, Default, PartialEq, Eq, Hash)]
pub struct Situation {
    /// Microseconds since the start of 2004 (TAI).
    pub now: u64,
    /// The caller's latitude in tenths of a microdegree, at most 900,000,000 to
    /// either side of 0. It is used where the message has no location, and must
    /// be in range where it has one; so must the longitude.
    pub latitude: i32,
    /// The caller's longitude, at most 1,800,000,000 to either side of 0.
    pub longitude: i32,
    /// By how many microseconds the generation time may differ from now, at
    /// most 600,000,000; 0 stands for 2,000,000.
    pub age: u64,
}

/// How many octets [`read`] writes: 90 words of 4 octets, big-endian.
pub const FIELDS_LENGTH: usize = 360;

/// How many words the fields have.
pub const WORDS: usize = FIELDS_LENGTH / 4;

/// How many octets [`id`] writes.
pub const ID_LENGTH: usize = 8;

/// How many octets a store has.
pub const STORE_LENGTH: usize = 13_568;

/// How many slots a store has.
pub const SLOTS: usize = 64;

/// How many octets [`stored`] writes.
pub const STORED_LENGTH: usize = 244;

/// How many octets [`list`] and [`standing`] need: one for each slot of a store.
pub const LIST_LENGTH: usize = SLOTS;

/// How many octets [`page`] needs; no text is longer.
pub const PAGE_LENGTH: usize = 6_144;

/// How many octets [`prepare`] writes: two questions, the message's and that of
/// the certificate it carries.
pub const QUESTIONS_LENGTH: usize = 104;

/// How many octets [`decide`] writes.
pub const DECISION_LENGTH: usize = 28;

/// The most octets that a name has.
pub const LONGEST_NAME: usize = 32;

/// The most permissions that a certificate has.
pub const MOST_PERMISSIONS: usize = 16;

/// The most rectangles that a region has.
pub const MOST_RECTANGLES: usize = 4;

/// What a call returns that was accepted; every other number is a refusal.
pub const ACCEPTED: u8 = 0;

/// Where each field stands, counted in words. A part is two words, start and
/// length.
#[allow(missing_docs)] // the names are those of the C header
pub mod word_at {
    pub const SIGNER: usize = 0;
    pub const ISSUER: usize = 1;
    pub const KIND: usize = 3;
    pub const NAME: usize = 4;
    pub const KEY_TYPE: usize = 6;
    pub const KEY: usize = 7;
    pub const ENCRYPTION_KEY_TYPE: usize = 9;
    pub const ENCRYPTION_KEY: usize = 10;
    pub const HAS_ASSURANCE: usize = 12;
    pub const ASSURANCE: usize = 13;
    pub const PERIOD_FORM: usize = 14;
    pub const START: usize = 15;
    pub const END: usize = 16;
    pub const HAS_REGION: usize = 18;
    pub const RECTANGLE_COUNT: usize = 19;
    pub const RECTANGLES: usize = 20;
    pub const PERMISSION_COUNT: usize = 36;
    pub const PERMISSIONS: usize = 37;
    pub const SSP_STARTS: usize = 53;
    pub const SSP_LENGTHS: usize = 69;
    pub const SIGNED: usize = 85;
    pub const SIGNATURE: usize = 87;
    pub const SIGNATURE_TYPE: usize = 89;
}

/// What stands where in what [`stored`] and [`decide`] write, where the
/// questions stand in what [`prepare`] writes, and what stands where in each of
/// them, counted in octets. A part is two words, start and length.
#[allow(missing_docs)] // the names are those of the C header
pub mod octet_at {
    pub const STORED_ID: usize = 0;
    pub const STORED_ISSUER: usize = 8;
    pub const STORED_STATE: usize = 16;
    pub const STORED_KIND: usize = 20;
    pub const STORED_START: usize = 24;
    pub const STORED_END: usize = 28;
    pub const STORED_NAME_LENGTH: usize = 36;
    pub const STORED_NAME: usize = 40;
    pub const STORED_KEY_PARITY: usize = 72;
    pub const STORED_KEY: usize = 76;
    pub const STORED_RECTANGLE_COUNT: usize = 108;
    pub const STORED_RECTANGLES: usize = 112;
    pub const STORED_PERMISSION_COUNT: usize = 176;
    pub const STORED_PERMISSIONS: usize = 180;

    pub const MESSAGE_QUESTION: usize = 0;
    pub const CERTIFICATE_QUESTION: usize = 52;

    pub const QUESTION_SIGNED: usize = 0;
    pub const QUESTION_SIGNATURE: usize = 8;
    pub const QUESTION_KEY_TYPE: usize = 16;
    pub const QUESTION_KEY: usize = 20;

    pub const DECISION_PAYLOAD: usize = 0;
    pub const DECISION_SIGNER: usize = 8;
    pub const DECISION_PERMISSION: usize = 16;
    pub const DECISION_GENERATION_TIME: usize = 20;
}

/// The word at an index of what [`read`] wrote.
///
/// # Panics
///
/// If the word does not lie inside `fields`.
///
/// ```
/// assert_eq!(nattveldi::raw::word(&[0, 0, 0, 1, 0, 0, 1, 2], 1), 258);
/// ```
#[must_use]
pub fn word(fields: &[u8], index: usize) -> u32 {
    octets::word(fields, 4 * index)
}
