//! Stores that are broken: damaged, against a rule, or of another length.

use crate::random::Random;
use crate::slot::{SLOTS, SLOT_LENGTH, STORE_LENGTH};

/// One bit changed, or a slot copied over another.
pub fn damage(store: &mut [u8], random: &mut Random) {
    if store.len() != STORE_LENGTH || random.once_in(2) {
        let bits = 8 * store.len();
        if bits > 0 {
            let bit = random.below(bits);
            store[bit / 8] ^= 0x80 >> (bit % 8);
        }
    } else {
        let (from, to) = (random.below(SLOTS), random.below(SLOTS));
        let from = from * SLOT_LENGTH;
        store.copy_within(from..from + SLOT_LENGTH, to * SLOT_LENGTH);
    }
}

/// A slot's last bit is set, which is padding. A short store may lack the slot.
pub fn set_padding(store: &mut [u8], random: &mut Random) {
    let end = (1 + random.below(SLOTS)) * SLOT_LENGTH;
    if let Some(last) = store.get_mut(end - 1) {
        *last |= 1;
    }
}

/// To a length that no store has.
pub fn resize(store: &mut Vec<u8>, random: &mut Random) {
    let shorter = random.below(STORE_LENGTH);
    let longer = STORE_LENGTH + 1 + shorter;
    let length = random.pick(&[0, 1, 13_567, 13_569, 27_136, shorter, longer]);
    let old = std::mem::take(store);
    store.extend(old.into_iter().cycle().take(length));
}
