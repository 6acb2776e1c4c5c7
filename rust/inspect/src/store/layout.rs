//! Where the fields of a slot stand (document 01, "The store"), in bits.

pub const SLOTS: usize = 64;
pub const SLOT_LENGTH: usize = 212;
pub const SLOT_BITS: usize = 8 * SLOT_LENGTH;

/// A field, or several of one width one behind the other.
#[derive(Clone, Copy, Debug, PartialEq, Eq)]
pub struct Place {
    pub bit: usize,
    pub width: usize,
    pub count: usize,
}

const fn behind(before: Place, width: usize, count: usize) -> Place {
    Place {
        bit: before.bit + before.width * before.count,
        width,
        count,
    }
}

pub const ID: Place = Place {
    bit: 0,
    width: 64,
    count: 1,
};
pub const ISSUER: Place = behind(ID, 64, 1);
pub const STATE: Place = behind(ISSUER, 2, 1);
pub const KIND: Place = behind(STATE, 3, 1);
pub const START: Place = behind(KIND, 32, 1);
pub const END: Place = behind(START, 38, 1);
pub const NAME_LENGTH: Place = behind(END, 6, 1);
pub const NAME: Place = behind(NAME_LENGTH, 8, 32);
pub const KEY_PARITY: Place = behind(NAME, 1, 1);
pub const KEY: Place = behind(KEY_PARITY, 8, 32);
pub const RECTANGLE_COUNT: Place = behind(KEY, 3, 1);
pub const RECTANGLES: Place = behind(RECTANGLE_COUNT, 128, 4);
pub const PERMISSION_COUNT: Place = behind(RECTANGLES, 5, 1);
pub const PERMISSIONS: Place = behind(PERMISSION_COUNT, 28, 16);
pub const PADDING: Place = behind(PERMISSIONS, 6, 1);

impl Place {
    /// The first bit of the value with this index.
    pub const fn of(self, index: usize) -> usize {
        self.bit + self.width * index
    }

    pub const fn end(self) -> usize {
        self.of(self.count)
    }
}

const _: () = assert!(PADDING.end() == SLOT_BITS);
