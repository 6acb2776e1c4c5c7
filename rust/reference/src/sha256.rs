//! SHA-256 (FIPS 180-4).

const BLOCK: usize = 64;

/// FIPS 180-4, clause 5.3.3.
const INITIAL: [u32; 8] = [
    0x6a09e667, 0xbb67ae85, 0x3c6ef372, 0xa54ff53a, 0x510e527f, 0x9b05688c, 0x1f83d9ab, 0x5be0cd19,
];

/// FIPS 180-4, clause 4.2.2.
const K: [u32; 64] = [
    0x428a2f98, 0x71374491, 0xb5c0fbcf, 0xe9b5dba5, 0x3956c25b, 0x59f111f1, 0x923f82a4, 0xab1c5ed5,
    0xd807aa98, 0x12835b01, 0x243185be, 0x550c7dc3, 0x72be5d74, 0x80deb1fe, 0x9bdc06a7, 0xc19bf174,
    0xe49b69c1, 0xefbe4786, 0x0fc19dc6, 0x240ca1cc, 0x2de92c6f, 0x4a7484aa, 0x5cb0a9dc, 0x76f988da,
    0x983e5152, 0xa831c66d, 0xb00327c8, 0xbf597fc7, 0xc6e00bf3, 0xd5a79147, 0x06ca6351, 0x14292967,
    0x27b70a85, 0x2e1b2138, 0x4d2c6dfc, 0x53380d13, 0x650a7354, 0x766a0abb, 0x81c2c92e, 0x92722c85,
    0xa2bfe8a1, 0xa81a664b, 0xc24b8b70, 0xc76c51a3, 0xd192e819, 0xd6990624, 0xf40e3585, 0x106aa070,
    0x19a4c116, 0x1e376c08, 0x2748774c, 0x34b0bcb5, 0x391c0cb3, 0x4ed8aa4a, 0x5b9cca4f, 0x682e6ff3,
    0x748f82ee, 0x78a5636f, 0x84c87814, 0x8cc70208, 0x90befffa, 0xa4506ceb, 0xbef9a3f7, 0xc67178f2,
];

/// A hash under way, so that octets in several places hash without being copied together.
pub(crate) struct Sha256 {
    state: [u32; 8],
    /// The last octets, short of a block: `length % BLOCK` of them.
    block: [u8; BLOCK],
    length: u64,
}

impl Sha256 {
    pub(crate) fn new() -> Self {
        Sha256 {
            state: INITIAL,
            block: [0; BLOCK],
            length: 0,
        }
    }

    fn filled(&self) -> usize {
        (self.length % BLOCK as u64) as usize
    }

    pub(crate) fn update(&mut self, mut octets: &[u8]) {
        let filled = self.filled();
        self.length += octets.len() as u64;
        if filled > 0 {
            let taken = octets.len().min(BLOCK - filled);
            let (head, rest) = octets.split_at(taken);
            self.block[filled..filled + taken].copy_from_slice(head);
            if filled + taken < BLOCK {
                return;
            }
            compress(&mut self.state, &self.block);
            octets = rest;
        }
        while let Some((block, rest)) = octets.split_first_chunk() {
            compress(&mut self.state, block);
            octets = rest;
        }
        self.block[..octets.len()].copy_from_slice(octets);
    }

    /// Pads (FIPS 180-4, clause 5.1.1) and gives the hash.
    pub(crate) fn finish(mut self) -> [u8; 32] {
        const LENGTH_AT: usize = BLOCK - 8;
        let filled = self.filled();
        self.block[filled] = 0x80;
        self.block[filled + 1..].fill(0);
        if filled >= LENGTH_AT {
            compress(&mut self.state, &self.block);
            self.block = [0; BLOCK];
        }
        self.block[LENGTH_AT..].copy_from_slice(&(self.length * 8).to_be_bytes());
        compress(&mut self.state, &self.block);

        let mut hash = [0; 32];
        for (octets, word) in hash.chunks_exact_mut(4).zip(self.state) {
            octets.copy_from_slice(&word.to_be_bytes());
        }
        hash
    }
}

/// SHA-256 of `octets`.
pub fn sha256(octets: &[u8]) -> [u8; 32] {
    let mut hash = Sha256::new();
    hash.update(octets);
    hash.finish()
}

/// FIPS 180-4, clause 6.2.2, on one block.
fn compress(state: &mut [u32; 8], block: &[u8; BLOCK]) {
    let w = schedule(block);
    let [mut a, mut b, mut c, mut d, mut e, mut f, mut g, mut h] = *state;
    for (k, w) in K.iter().zip(&w) {
        let sum1 = e.rotate_right(6) ^ e.rotate_right(11) ^ e.rotate_right(25);
        // (e & f) ^ (!e & g), and below the majority of a, b and c, with one operation less.
        let choice = g ^ (e & (f ^ g));
        let t1 = h
            .wrapping_add(*k)
            .wrapping_add(*w)
            .wrapping_add(choice)
            .wrapping_add(sum1);
        let sum0 = a.rotate_right(2) ^ a.rotate_right(13) ^ a.rotate_right(22);
        let majority = (a & b) ^ (c & (a ^ b));
        let t2 = sum0.wrapping_add(majority);
        (h, g, f, e) = (g, f, e, d.wrapping_add(t1));
        (d, c, b, a) = (c, b, a, t1.wrapping_add(t2));
    }
    for (word, add) in state.iter_mut().zip([a, b, c, d, e, f, g, h]) {
        *word = word.wrapping_add(add);
    }
}

/// The message schedule of a block.
#[inline]
fn schedule(block: &[u8; BLOCK]) -> [u32; 64] {
    let mut w = [0; 64];
    for (word, octets) in w.iter_mut().zip(block.as_chunks().0) {
        *word = u32::from_be_bytes(*octets);
    }
    for t in 16..64 {
        let (w2, w15) = (w[t - 2], w[t - 15]);
        let sigma1 = w2.rotate_right(17) ^ w2.rotate_right(19) ^ (w2 >> 10);
        let sigma0 = w15.rotate_right(7) ^ w15.rotate_right(18) ^ (w15 >> 3);
        w[t] = sigma1
            .wrapping_add(w[t - 7])
            .wrapping_add(sigma0)
            .wrapping_add(w[t - 16]);
    }
    w
}

#[cfg(test)]
mod tests {
    use super::*;

    /// Every cut into three pieces around block edges hashes as the whole.
    #[test]
    fn pieces_hash_as_the_whole() {
        let octets: Vec<u8> = (0..200u8).collect();
        for length in [0, 1, 55, 56, 63, 64, 65, 119, 120, 127, 128, 129, 200] {
            let whole = sha256(&octets[..length]);
            for first in 0..=length {
                for second in [first, (first + 1).min(length), length] {
                    let mut hash = Sha256::new();
                    hash.update(&octets[..first]);
                    hash.update(&octets[first..second]);
                    hash.update(&octets[second..length]);
                    assert_eq!(hash.finish(), whole, "{length} {first} {second}");
                }
            }
        }
    }
}
