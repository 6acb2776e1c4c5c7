//! SHA-256 (FIPS 180-4) and a certificate's id, for what is expected. No side
//! has a part in this: even the constants are worked out here.

use std::sync::OnceLock;

/// Where the signature's point type stands, counted from a certificate's end.
const POINT_TYPE_FROM_END: usize = 65;

struct Constants {
    first: [u32; 8],
    rounds: [u32; 64],
}

/// "The last 8 octets of SHA-256 over the whole certificate, with the
/// signature's point type taken as 0."
pub fn id(certificate: &[u8]) -> [u8; 8] {
    let mut octets = certificate.to_vec();
    let point_type = octets.len() - POINT_TYPE_FROM_END;
    octets[point_type] = 0;
    let digest = digest(&octets);
    std::array::from_fn(|i| digest[24 + i])
}

pub fn digest(message: &[u8]) -> [u8; 32] {
    let mut padded = message.to_vec();
    padded.push(0x80);
    padded.resize((padded.len() + 8).next_multiple_of(64) - 8, 0);
    padded.extend((8 * message.len() as u64).to_be_bytes());
    let mut state = constants().first;
    for block in padded.chunks(64) {
        mix(&mut state, block);
    }
    std::array::from_fn(|i| state[i / 4].to_be_bytes()[i % 4])
}

fn mix(state: &mut [u32; 8], block: &[u8]) {
    let [mut a, mut b, mut c, mut d, mut e, mut f, mut g, mut h] = *state;
    for (word, constant) in schedule(block).into_iter().zip(constants().rounds) {
        let turned = e.rotate_right(6) ^ e.rotate_right(11) ^ e.rotate_right(25);
        let chosen = e & f ^ !e & g;
        let one = [turned, chosen, constant, word].into_iter();
        let one = one.fold(h, u32::wrapping_add);
        let turned = a.rotate_right(2) ^ a.rotate_right(13) ^ a.rotate_right(22);
        let two = turned.wrapping_add(a & b ^ a & c ^ b & c);
        (h, g, f, e) = (g, f, e, d.wrapping_add(one));
        (d, c, b, a) = (c, b, a, one.wrapping_add(two));
    }
    for (old, new) in state.iter_mut().zip([a, b, c, d, e, f, g, h]) {
        *old = old.wrapping_add(new);
    }
}

fn schedule(block: &[u8]) -> [u32; 64] {
    let mut words = [0_u32; 64];
    for (word, octets) in words.iter_mut().zip(block.chunks(4)) {
        *word = u32::from_be_bytes(octets.try_into().expect("4 octets of 64"));
    }
    for i in 16..64 {
        let (old, new) = (words[i - 15], words[i - 2]);
        let zero = old.rotate_right(7) ^ old.rotate_right(18) ^ old >> 3;
        let one = new.rotate_right(17) ^ new.rotate_right(19) ^ new >> 10;
        let sum = [words[i - 16], zero, words[i - 7], one];
        words[i] = sum.into_iter().fold(0, u32::wrapping_add);
    }
    words
}

/// The first 32 bits behind the point: of the square roots of the first 8
/// primes, of the cube roots of the first 64.
fn constants() -> &'static Constants {
    static CONSTANTS: OnceLock<Constants> = OnceLock::new();
    CONSTANTS.get_or_init(|| {
        let is_prime = |n: &u128| (2..*n).all(|factor| !n.is_multiple_of(factor));
        let primes: Vec<u128> = (2..).filter(is_prime).take(64).collect();
        Constants {
            first: std::array::from_fn(|i| root(primes[i] << 64, 2)),
            rounds: std::array::from_fn(|i| root(primes[i] << 96, 3)),
        }
    })
}

/// The low 32 bits of a root's whole part, bit by bit; no root has more than 36.
fn root(number: u128, power: u32) -> u32 {
    let mut root = 0_u128;
    for bit in (0..36).rev() {
        let larger = root | 1 << bit;
        if larger.pow(power) <= number {
            root = larger;
        }
    }
    root as u32
}

#[cfg(test)]
mod tests {
    use super::*;
    use crate::hex;

    /// FIPS 180-4 lists these constants and, in its examples, these digests.
    #[test]
    fn is_sha_256() {
        assert_eq!(constants().first[0], 0x6a09_e667);
        assert_eq!(constants().rounds[63], 0xc671_78f2);
        for (message, expected) in [
            (
                "abc",
                "ba7816bf8f01cfea414140de5dae2223b00361a396177a9cb410ff61f20015ad",
            ),
            (
                "abcdbcdecdefdefgefghfghighijhijkijkljklmklmnlmnomnopnopq",
                "248d6a61d20638b8e5c026930c3e6039a33ce45964ff2167f6ecedd419db06c1",
            ),
        ] {
            assert_eq!(hex::text(&digest(message.as_bytes())), expected);
        }
    }
}
