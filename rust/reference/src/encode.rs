//! A record packed into a slot's octets.

use crate::constants::SLOT_LENGTH;
use crate::layout::*;
use crate::record::Record;
use crate::store::Slot;

/// The slot that spells a record. Of a number wider than its field, the low bits stand.
pub fn encode(record: &Record) -> Slot {
    let mut packer = Packer::new();
    packer.put(u64::from_be_bytes(record.id), ID_BITS);
    packer.put(u64::from_be_bytes(record.issuer), ID_BITS);
    packer.put(u64::from(record.state), STATE_BITS);
    packer.put(u64::from(record.kind), KIND_BITS);
    packer.put(u64::from(record.start), START_BITS);
    packer.put(record.end, END_BITS);
    packer.put(record.name_length as u64, NAME_LENGTH_BITS);
    packer.put_octets(&record.name);
    packer.put(u64::from(record.parity), PARITY_BITS);
    packer.put_octets(&record.key);
    packer.put(record.rectangle_count as u64, RECTANGLE_COUNT_BITS);
    for rectangle in &record.rectangles {
        packer.put_place(rectangle.north, rectangle.west);
        packer.put_place(rectangle.south, rectangle.east);
    }
    packer.put(record.permission_count as u64, PERMISSION_COUNT_BITS);
    for permission in record.permissions {
        packer.put(u64::from(permission), PERMISSION_BITS);
    }
    packer.finish()
}

/// A slot that is filled from its first bit on, a word at a time.
struct Packer {
    image: Slot,
    /// The octets of `image` that are written.
    written: usize,
    /// The bits that follow them, from the most significant on; zeros after those.
    word: u64,
    /// How many bits of `word` are taken, at most 63.
    taken: usize,
}

impl Packer {
    fn new() -> Self {
        Packer {
            image: [0; SLOT_LENGTH],
            written: 0,
            word: 0,
            taken: 0,
        }
    }

    /// Appends the low `width` bits of `value`; `width` is 1 to 64.
    #[inline(always)]
    fn put(&mut self, value: u64, width: usize) {
        let bits = value << (64 - width);
        self.word |= bits >> self.taken;
        let room = 64 - self.taken;
        if width < room {
            self.taken += width;
            return;
        }
        self.image[self.written..self.written + 8].copy_from_slice(&self.word.to_be_bytes());
        self.written += 8;
        // All 64 bits are out when there was room for as many.
        self.word = bits.checked_shl(room as u32).unwrap_or(0);
        self.taken = width - room;
    }

    #[inline(always)]
    fn put_octets(&mut self, octets: &[u8; 32]) {
        for word in octets.as_chunks().0 {
            self.put(u64::from_be_bytes(*word), 64);
        }
    }

    #[inline(always)]
    fn put_place(&mut self, latitude: i32, longitude: i32) {
        let place = u64::from(latitude as u32) << EDGE_BITS | u64::from(longitude as u32);
        self.put(place, 2 * EDGE_BITS);
    }

    /// The slot, with the padding's zeros behind the last bit.
    fn finish(mut self) -> Slot {
        let rest = &mut self.image[self.written..];
        let length = rest.len();
        rest.copy_from_slice(&self.word.to_be_bytes()[..length]);
        self.image
    }
}
