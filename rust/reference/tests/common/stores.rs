//! Slots spelled bit by bit after document 01, "The store", with room for every mistake.

use reference::{Record, Rectangle, SLOTS, SLOT_LENGTH, STORE_LENGTH};

/// "The latest end is ... 262,777,739,970."
pub const LATEST_END: u64 = 262_777_739_970;

/// The widths of the fields in their order; 1,696 bits.
pub const WIDTHS: [usize; 15] = [
    64,
    64,
    2,
    3,
    32,
    38,
    6,
    256,
    1,
    256,
    3,
    4 * 128,
    5,
    16 * 28,
    6,
];

// The number of a field in that order.
pub const ISSUER_FIELD: usize = 1;
pub const NAME_FIELD: usize = 7;
pub const KEY_FIELD: usize = 9;
pub const RECTANGLES_FIELD: usize = 11;
pub const PERMISSIONS_FIELD: usize = 13;
pub const PADDING_FIELD: usize = 14;

/// The first bit of a field.
pub fn first_bit(field: usize) -> usize {
    WIDTHS[..field].iter().sum()
}

/// The numbers of a slot, each cut to its width when spelled; edges are north, west, south, east.
#[derive(Clone)]
pub struct Fields {
    pub id: u64,
    pub issuer: u64,
    pub state: u64,
    pub kind: u64,
    pub start: u64,
    pub end: u64,
    pub name_length: u64,
    pub name: [u8; 32],
    pub parity: u64,
    pub key: [u8; 32],
    pub rectangle_count: u64,
    pub rectangles: [[i32; 4]; 4],
    pub permission_count: u64,
    pub permissions: [u64; 16],
    pub padding: u64,
}

impl Fields {
    /// A held authority with permission 36 alone, 100 to 900, no name and no region.
    pub fn new(id: u64) -> Fields {
        let mut permissions = [0; 16];
        permissions[0] = 36;
        Fields {
            id,
            issuer: 0x0101_0101_0101_0101,
            state: 1,
            kind: 2,
            start: 100,
            end: 900,
            name_length: 0,
            name: [0; 32],
            parity: 0,
            key: [0; 32],
            rectangle_count: 0,
            rectangles: [[0; 4]; 4],
            permission_count: 1,
            permissions,
            padding: 0,
        }
    }

    /// A held record with as much as the counts say, from numbers of no meaning.
    pub fn with_counts(id: u64, name: usize, rectangles: usize, permissions: usize) -> Fields {
        let mut fields = Fields::new(id);
        fields.name_length = name as u64;
        fields.name[..name].fill(0xa5);
        fields.key = [0x5a; 32];
        fields.rectangle_count = rectangles as u64;
        fields.rectangles[..rectangles].fill([700_000_000, -1_000_000_000, -1, 1_111_111_111]);
        fields.permission_count = permissions as u64;
        fields.permissions[..permissions].fill(0x0aaa_5555);
        fields.permissions[permissions..].fill(0);
        fields
    }

    /// The record that the fields spell, their numbers within their widths.
    pub fn record(&self) -> Record {
        let rectangle = |[north, west, south, east]: [i32; 4]| Rectangle {
            north,
            west,
            south,
            east,
        };
        Record {
            id: self.id.to_be_bytes(),
            issuer: self.issuer.to_be_bytes(),
            state: self.state as u8,
            kind: self.kind as u8,
            start: self.start as u32,
            end: self.end,
            name_length: self.name_length as usize,
            name: self.name,
            parity: self.parity as u8,
            key: self.key,
            rectangle_count: self.rectangle_count as usize,
            rectangles: self.rectangles.map(rectangle),
            permission_count: self.permission_count as usize,
            permissions: self.permissions.map(|permission| permission as u32),
        }
    }

    pub fn slot(&self) -> [u8; SLOT_LENGTH] {
        let mut bits = Vec::new();
        put(&mut bits, self.id, 64);
        put(&mut bits, self.issuer, 64);
        put(&mut bits, self.state, 2);
        put(&mut bits, self.kind, 3);
        put(&mut bits, self.start, 32);
        put(&mut bits, self.end, 38);
        put(&mut bits, self.name_length, 6);
        for octet in self.name {
            put(&mut bits, u64::from(octet), 8);
        }
        put(&mut bits, self.parity, 1);
        for octet in self.key {
            put(&mut bits, u64::from(octet), 8);
        }
        put(&mut bits, self.rectangle_count, 3);
        for edge in self.rectangles.as_flattened() {
            put(&mut bits, *edge as u64, 32);
        }
        put(&mut bits, self.permission_count, 5);
        for permission in self.permissions {
            put(&mut bits, permission, 28);
        }
        put(&mut bits, self.padding, 6);
        octets(&bits)
    }
}

/// Appends the low `width` bits of `value`, most significant first.
fn put(bits: &mut Vec<bool>, value: u64, width: usize) {
    bits.extend((0..width).rev().map(|bit| value >> bit & 1 == 1));
}

fn octets(bits: &[bool]) -> [u8; SLOT_LENGTH] {
    assert_eq!(bits.len(), 8 * SLOT_LENGTH);
    let mut slot = [0; SLOT_LENGTH];
    for (at, bit) in bits.iter().enumerate() {
        slot[at / 8] |= u8::from(*bit) << (7 - at % 8);
    }
    slot
}

/// Turns one bit of a slot.
pub fn flip(slot: &mut [u8], bit: usize) {
    slot[bit / 8] ^= 0x80 >> (bit % 8);
}

pub fn empty_store() -> Vec<u8> {
    vec![0; STORE_LENGTH]
}

pub fn set_slot(store: &mut [u8], number: usize, slot: &[u8; SLOT_LENGTH]) {
    store[number * SLOT_LENGTH..(number + 1) * SLOT_LENGTH].copy_from_slice(slot);
}

/// A store with these slots at its beginning.
pub fn store_of(slots: &[Fields]) -> Vec<u8> {
    let mut store = empty_store();
    for (number, fields) in slots.iter().enumerate() {
        set_slot(&mut store, number, &fields.slot());
    }
    store
}

/// A store with every slot filled, of ids 1,000 on.
pub fn full_store() -> Vec<u8> {
    let slots: Vec<Fields> = (0..SLOTS as u64)
        .map(|number| Fields::new(1_000 + number))
        .collect();
    store_of(&slots)
}

/// Numbers of no meaning, the same on every run (xorshift).
pub struct Numbers(pub u64);

impl Numbers {
    pub fn next(&mut self) -> u64 {
        self.0 ^= self.0 << 13;
        self.0 ^= self.0 >> 7;
        self.0 ^= self.0 << 17;
        self.0
    }

    pub fn below(&mut self, limit: u64) -> u64 {
        (self.next() >> 8) % limit
    }
}
