//! Fields of a slot: runs of bits, the most significant first.

/// A field of at most 64 bits.
pub fn number(octets: &[u8], from: usize, width: usize) -> u64 {
    (from..from + width).fold(0, |n, bit| n << 1 | u64::from(is_set(octets, bit)))
}

/// So many octets that begin at any bit.
pub fn octets(octets: &[u8], from: usize, count: usize) -> Vec<u8> {
    (0..count)
        .map(|i| number(octets, from + 8 * i, 8) as u8)
        .collect()
}

/// The first bit that is set.
pub fn first_set(octets: &[u8], from: usize, end: usize) -> Option<usize> {
    (from..end).find(|&bit| is_set(octets, bit))
}

fn is_set(octets: &[u8], bit: usize) -> bool {
    octets[bit / 8] >> (7 - bit % 8) & 1 == 1
}

#[cfg(test)]
mod tests {
    use super::*;

    #[test]
    fn most_significant_first() {
        let given = [0b1010_0110, 0b0111_1111];
        assert_eq!(number(&given, 0, 3), 0b101);
        assert_eq!(number(&given, 6, 4), 0b1001);
        assert_eq!(octets(&given, 4, 1), [0b0110_0111]);
        assert_eq!(first_set(&given, 3, 5), None);
        assert_eq!(first_set(&given, 3, 16), Some(5));
    }
}
