//! Writes octets as document 01 lays them out.

/// An IntX in its shortest form. Examples need no value above 16,383.
pub fn intx(value: usize) -> Vec<u8> {
    match value {
        0..=127 => vec![value as u8],
        128..=16_383 => vec![0x80 | (value >> 8) as u8, value as u8],
        _ => panic!("no example has an IntX of {value}"),
    }
}

/// A vector with its length.
pub fn vector(content: &[u8]) -> Vec<u8> {
    [intx(content.len()), content.to_vec()].concat()
}

/// A signature structure that nobody computed: algorithm 0, an x coordinate of
/// one octet 32 times, and s of the next.
pub fn placeholder_signature(octet: u8) -> Vec<u8> {
    [vec![0, 0], vec![octet; 32], vec![octet + 1; 32]].concat()
}

/// A latitude and a longitude, given in degrees: a corner of a region, or where a
/// message was sent.
pub fn place(latitude: i32, longitude: i32) -> Vec<u8> {
    let tenths = |degrees: i32| (10_000_000 * degrees).to_be_bytes();
    [tenths(latitude), tenths(longitude)].concat()
}

/// Attribute 0 with an x coordinate and point type 3 or 2.
pub fn verification_key(point_type: u8, x: &str) -> Vec<u8> {
    let x = crate::text::hex::octets(x.as_bytes()).expect("hex text");
    [vec![0, 0, point_type], x].concat()
}

#[cfg(test)]
mod tests {
    use super::*;

    #[test]
    fn shortest_forms() {
        assert_eq!(intx(10), [0x0a]);
        assert_eq!(intx(127), [0x7f]);
        assert_eq!(intx(128), [0x80, 0x80]);
        assert_eq!(intx(2_184), [0x88, 0x88]);
    }
}
