//! What a slot holds, in the octets of the C interface: words of 4 octets and
//! all other numbers are big-endian, and what is not used is zero.

use crate::entry::Entry;

/// How many octets there are.
pub const LENGTH: usize = 244;
/// Behind the room for a name.
const PARITY_AT: usize = 72;
/// Behind the room for four rectangles.
const PERMISSION_COUNT_AT: usize = 176;

/// "Id, issuer, state, kind, start, end, name length, name, key parity, key,
/// rectangle count, rectangles, permission count, permissions."
pub fn octets(entry: &Entry) -> [u8; LENGTH] {
    let mut octets = Vec::with_capacity(LENGTH);
    octets.extend(entry.id);
    octets.extend(entry.issuer);
    octets.extend(word(entry.state.into()));
    octets.extend(word(entry.kind.into()));
    octets.extend(word(entry.start));
    octets.extend(entry.end.to_be_bytes());
    octets.extend(word(entry.name.len() as u32));
    octets.extend(&entry.name);
    octets.resize(PARITY_AT, 0);
    octets.extend(word(entry.parity.into()));
    octets.extend(entry.key);
    octets.extend(word(entry.rectangles.len() as u32));
    for edge in entry.rectangles.iter().flatten() {
        octets.extend(edge.to_be_bytes());
    }
    octets.resize(PERMISSION_COUNT_AT, 0);
    octets.extend(word(entry.permissions.len() as u32));
    for permission in &entry.permissions {
        octets.extend(word(*permission));
    }
    octets.resize(LENGTH, 0);
    octets.try_into().expect("as many octets as there are")
}

fn word(number: u32) -> [u8; 4] {
    number.to_be_bytes()
}

#[cfg(test)]
mod tests {
    use super::*;

    /// A field's first octet, and its octets.
    fn fields(permissions: &[u8]) -> Vec<(usize, Vec<u8>)> {
        let edges = [[0, 0, 0, 9], [255, 255, 255, 254], [255; 4], [0, 0, 1, 0]];
        vec![
            (0, vec![0x11; 8]),
            (8, vec![0x22; 8]),
            (16, vec![0, 0, 0, 2]),
            (20, vec![0, 0, 0, 1]),
            (24, vec![0x01, 0x02, 0x03, 0x04]),
            (28, vec![0, 0, 0, 0x3d, 0x2e, 0, 0, 0x02]),
            (36, vec![0, 0, 0, 3]),
            (40, b"abc".to_vec()),
            (72, vec![0, 0, 0, 1]),
            (76, vec![0x33; 32]),
            (108, vec![0, 0, 0, 2]),
            (112, edges.concat()),
            (128, edges.concat()),
            (176, vec![0, 0, 0, permissions.len() as u8 / 4]),
            (180, permissions.to_vec()),
        ]
    }

    #[test]
    fn fields_stand_where_the_interface_has_them() {
        let mut expected = [0; 244];
        for (at, octets) in fields(&[0x0f, 0xff, 0xff, 0xff, 0, 0, 0, 36]) {
            expected[at..][..octets.len()].copy_from_slice(&octets);
        }
        let entry = Entry {
            id: [0x11; 8],
            issuer: [0x22; 8],
            state: 2,
            kind: 1,
            start: 0x0102_0304,
            end: 0x3d_2e00_0002,
            name: b"abc".to_vec(),
            parity: 1,
            key: [0x33; 32],
            rectangles: vec![[9, -2, -1, 256]; 2],
            permissions: vec![268_435_455, 36],
        };
        assert_eq!(octets(&entry), expected);
    }
}
