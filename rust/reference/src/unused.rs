//! "Unused room is zero" (document 01, "The store"), a word at a time.

use crate::constants::{MAXIMUM_NAME, MAXIMUM_PERMISSIONS, MAXIMUM_RECTANGLES, SLOT_LENGTH};
use crate::layout::{
    NAME_AT, PARITY_AT, PERMISSIONS_AT, PERMISSION_BITS, PERMISSION_COUNT_AT, RECTANGLES_AT,
    RECTANGLE_BITS, SLOT_BITS,
};
use crate::store::Slot;

/// A field of elements, of which the first so many are used.
struct Room<const WORDS: usize, const COUNTS: usize> {
    /// The first octet of the `WORDS` words of eight octets that hold the room.
    octet: usize,
    /// For each count of elements the bits behind them, in a slot's own order of octets.
    masks: [[u64; WORDS]; COUNTS],
}

static NAME: Room<5, { MAXIMUM_NAME + 1 }> = Room::new(24, NAME_AT, 8, PARITY_AT);

static RECTANGLES: Room<9, { MAXIMUM_RECTANGLES + 1 }> =
    Room::new(88, RECTANGLES_AT, RECTANGLE_BITS, PERMISSION_COUNT_AT);

/// The padding is never used.
static PERMISSIONS: Room<8, { MAXIMUM_PERMISSIONS + 1 }> =
    Room::new(SLOT_LENGTH - 64, PERMISSIONS_AT, PERMISSION_BITS, SLOT_BITS);

impl<const WORDS: usize, const COUNTS: usize> Room<WORDS, COUNTS> {
    /// The room from bit `at` to bit `end`, with elements of `width` bits.
    const fn new(octet: usize, at: usize, width: usize, end: usize) -> Self {
        assert!(8 * octet <= at && end <= 8 * octet + 64 * WORDS);
        let mut masks = [[0; WORDS]; COUNTS];
        let mut count = 0;
        while count < COUNTS {
            let mut word = 0;
            while word < WORDS {
                let first = 8 * octet + 64 * word;
                let used = at + width * count;
                masks[count][word] = (ones_from(used, first) & !ones_from(end, first)).to_be();
                word += 1;
            }
            count += 1;
        }
        Room { octet, masks }
    }

    /// Whether `count` is allowed, and all behind so many elements is zero.
    #[inline(always)]
    fn is_zero_behind(&self, slot: &Slot, count: usize) -> bool {
        let Some(masks) = self.masks.get(count) else {
            return false;
        };
        let (words, _) = slot[self.octet..].as_chunks();
        let mut rest = 0;
        for (word, mask) in words.iter().zip(masks) {
            rest |= u64::from_ne_bytes(*word) & mask;
        }
        rest == 0
    }
}

/// The bits from `at` on, of a word whose first bit is `first`.
const fn ones_from(at: usize, first: usize) -> u64 {
    match at.saturating_sub(first) {
        shift @ 0..64 => u64::MAX >> shift,
        _ => 0,
    }
}

/// Whether a name may have `length` octets, with zeros behind it.
#[inline(always)]
pub(crate) fn name_room_is_zero(slot: &Slot, length: usize) -> bool {
    NAME.is_zero_behind(slot, length)
}

/// Whether there may be `count` rectangles, with zeros behind them.
#[inline(always)]
pub(crate) fn rectangle_room_is_zero(slot: &Slot, count: usize) -> bool {
    RECTANGLES.is_zero_behind(slot, count)
}

/// Whether there may be `count` permissions, with zeros up to the slot's end.
#[inline(always)]
pub(crate) fn permission_room_is_zero(slot: &Slot, count: usize) -> bool {
    PERMISSIONS.is_zero_behind(slot, count)
}

/// "An empty slot is all zero."
#[inline(always)]
pub(crate) fn is_all_zero(slot: &Slot) -> bool {
    let (words, rest) = slot.as_chunks();
    let word = words
        .iter()
        .fold(0, |all, word| all | u64::from_ne_bytes(*word));
    word == 0 && rest == [0; SLOT_LENGTH % 8]
}
