//! Slots of a store, written bit by bit as document 01 lays them out.

#[derive(Clone, Debug)]
pub struct Slot {
    pub id: [u8; 8],
    pub issuer: [u8; 8],
    pub state: u64,
    pub kind: u64,
    pub start: u64,
    pub end: u64,
    pub name: Vec<u8>,
    pub parity: u64,
    pub key: [u8; 32],
    /// North, west, south, east.
    pub rectangles: Vec<[i32; 4]>,
    pub permissions: Vec<u64>,
}

impl Slot {
    /// A held certificate whose id and issuer are an octet eight times.
    pub fn new(id: u8, issuer: u8, kind: u64, start: u64, end: u64) -> Slot {
        Slot {
            id: [id; 8],
            issuer: [issuer; 8],
            state: 1,
            kind,
            start,
            end,
            name: Vec::new(),
            parity: 0,
            key: [0; 32],
            rectangles: Vec::new(),
            permissions: vec![36],
        }
    }

    pub fn octets(&self) -> Vec<u8> {
        let mut bits = Bits::default();
        self.id.iter().for_each(|&o| bits.put(o.into(), 8));
        self.issuer.iter().for_each(|&o| bits.put(o.into(), 8));
        bits.put(self.state, 2);
        bits.put(self.kind, 3);
        bits.put(self.start, 32);
        bits.put(self.end, 38);
        bits.put(self.name.len() as u64, 6);
        bits.padded(self.name.iter().map(|&o| o.into()), 8, 32);
        bits.put(self.parity, 1);
        bits.padded(self.key.iter().map(|&o| o.into()), 8, 32);
        bits.put(self.rectangles.len() as u64, 3);
        let edges = self.rectangles.iter().flatten();
        bits.padded(edges.map(|&edge| u64::from(edge as u32)), 32, 16);
        bits.put(self.permissions.len() as u64, 5);
        bits.padded(self.permissions.iter().copied(), 28, 16);
        bits.put(0, 6);
        bits.octets()
    }
}

/// The slots from slot 0 on; the others are empty.
pub fn store(slots: &[Slot]) -> Vec<u8> {
    let mut octets: Vec<u8> = slots.iter().flat_map(Slot::octets).collect();
    octets.resize(13_568, 0);
    octets
}

#[derive(Default)]
struct Bits(Vec<bool>);

impl Bits {
    fn put(&mut self, value: u64, width: usize) {
        let bits = (0..width).rev().map(|bit| value >> bit & 1 == 1);
        self.0.extend(bits);
    }

    fn padded(&mut self, values: impl Iterator<Item = u64>, width: usize, count: usize) {
        let end = self.0.len() + width * count;
        values.for_each(|value| self.put(value, width));
        self.0.resize(end, false);
    }

    fn octets(self) -> Vec<u8> {
        let octet = |bits: &[bool]| bits.iter().fold(0, |o, &bit| o << 1 | u8::from(bit));
        self.0.chunks(8).map(octet).collect()
    }
}
