//! A small generator, and damage.

/// xorshift64.
pub struct Random(u64);

impl Random {
    pub fn new(seed: u64) -> Random {
        Random(seed)
    }

    pub fn next(&mut self) -> u64 {
        self.0 ^= self.0 << 13;
        self.0 ^= self.0 >> 7;
        self.0 ^= self.0 << 17;
        self.0
    }

    pub fn below(&mut self, n: usize) -> usize {
        (self.next() >> 11) as usize % n
    }

    pub fn one_in(&mut self, n: usize) -> bool {
        self.below(n) == 0
    }

    pub fn of<T: Copy>(&mut self, values: &[T]) -> T {
        values[self.below(values.len())]
    }

    pub fn octet(&mut self) -> u8 {
        // Octets that mean something as a type, a length or a first octet.
        let telling = [
            0, 1, 2, 3, 4, 5, 16, 32, 33, 64, 127, 128, 129, 0xc0, 0xe0, 0xf0, 255,
        ];
        match self.below(3) {
            0 => self.next() as u8,
            _ => self.of(&telling),
        }
    }

    /// One to three changes.
    pub fn damage(&mut self, octets: &mut Vec<u8>) {
        for _ in 0..=self.below(3) {
            self.damage_once(octets);
        }
    }

    fn damage_once(&mut self, octets: &mut Vec<u8>) {
        if octets.is_empty() {
            return;
        }
        let at = self.below(octets.len());
        match self.below(8) {
            0 => octets.truncate(at),
            1 => octets.insert(at, self.octet()),
            2 => drop(octets.remove(at)),
            3 => octets[at] = octets[at].wrapping_add(1),
            4 => octets[at] = octets[at].wrapping_sub(1),
            5 => {
                let run: Vec<u8> = octets[at..]
                    .iter()
                    .take(1 + self.below(40))
                    .copied()
                    .collect();
                octets.splice(at..at, run);
            }
            6 => drop(octets.drain(at..octets.len().min(at + 1 + self.below(40)))),
            _ => octets[at] = self.octet(),
        }
    }
}
