//! The bits of a store's slot, in the order of paper 01: "id 64, issuer 64,
//! state 2, kind 3, start 32, end 38, ..", most significant first. No reader
//! has a part in this.

pub const SLOT_LENGTH: usize = 212;
pub const SLOT_BITS: usize = 8 * SLOT_LENGTH;
pub const SLOTS: usize = 64;
pub const STORE_LENGTH: usize = SLOTS * SLOT_LENGTH;

pub type Slot = [u8; SLOT_LENGTH];

/// A number of a slot: its first bit, and how many it has, at most 64.
#[derive(Clone, Copy, Debug, PartialEq, Eq)]
pub struct Field {
    pub at: usize,
    pub width: usize,
}

pub const ID: Field = Field { at: 0, width: 64 };
pub const ISSUER: Field = ID.then(64);
pub const STATE: Field = ISSUER.then(2);
pub const KIND: Field = STATE.then(3);
pub const START: Field = KIND.then(32);
pub const END: Field = START.then(38);
pub const NAME_LENGTH: Field = END.then(6);
/// The first of 32 octets.
pub const NAME: Field = NAME_LENGTH.then(8);
pub const PARITY: Field = NAME.nth(31).then(1);
/// The first of 32 octets.
pub const KEY: Field = PARITY.then(8);
pub const RECTANGLE_COUNT: Field = KEY.nth(31).then(3);
/// The first of 16 edges: north, west, south, east of each rectangle.
pub const EDGES: Field = RECTANGLE_COUNT.then(32);
pub const PERMISSION_COUNT: Field = EDGES.nth(15).then(5);
/// The first of 16.
pub const PERMISSIONS: Field = PERMISSION_COUNT.then(28);
pub const PADDING: Field = PERMISSIONS.nth(15).then(6);

impl Field {
    /// The field that follows.
    const fn then(self, width: usize) -> Field {
        Field {
            at: self.at + self.width,
            width,
        }
    }

    /// Of fields with one width in a row, the one so many places further on.
    pub const fn nth(self, places: usize) -> Field {
        Field {
            at: self.at + places * self.width,
            width: self.width,
        }
    }

    /// Writes the lowest bits of a value over the field.
    pub fn put(self, slot: &mut Slot, value: u64) {
        let mut left = self.width;
        while left > 0 {
            let bit = self.at + self.width - left;
            // The bits of this field in the octet of `bit`.
            let count = left.min(8 - bit % 8);
            let low = 8 - bit % 8 - count;
            let mask = (0xff >> (8 - count)) << low;
            left -= count;
            let octet = &mut slot[bit / 8];
            *octet = *octet & !mask | ((value >> left) << low) as u8 & mask;
        }
    }

    pub fn get(self, slot: &Slot) -> u64 {
        (self.at..self.at + self.width).fold(0, |value, bit| {
            value << 1 | u64::from(slot[bit / 8] >> (7 - bit % 8) & 1)
        })
    }
}

#[cfg(test)]
mod tests {
    use super::*;

    #[test]
    fn fields_fill_a_slot() {
        assert_eq!(PADDING.then(0).at, SLOT_BITS);
        assert_eq!((STATE.at, NAME.at, KEY.at), (128, 209, 466));
        assert_eq!((EDGES.at, PERMISSIONS.at), (725, 1_242));
    }

    #[test]
    fn bits_stand_most_significant_first() {
        let mut slot = [0; SLOT_LENGTH];
        STATE.put(&mut slot, 1);
        KIND.put(&mut slot, 4);
        START.put(&mut slot, 0x8000_0001);
        assert_eq!(slot[16..22], [0b0110_0100, 0, 0, 0, 0b0000_1000, 0]);
        END.put(&mut slot, u64::MAX);
        assert_eq!(slot[20..27], [0x0f, 255, 255, 255, 255, 0b1110_0000, 0]);
    }

    /// What is put is got, and nothing else changes.
    #[test]
    fn put_and_get() {
        for field in [ID, STATE, END, NAME, PARITY, EDGES, PERMISSIONS, PADDING] {
            let most = u64::MAX >> (64 - field.width);
            for (fill, value) in [(0xff, 0), (0, most), (0xff, most / 3), (0, most / 3)] {
                let mut slot = [fill; SLOT_LENGTH];
                field.put(&mut slot, value);
                assert_eq!(field.get(&slot), value);
                field.put(&mut slot, if fill == 0 { 0 } else { u64::MAX });
                assert_eq!(slot, [fill; SLOT_LENGTH]);
            }
        }
    }
}
