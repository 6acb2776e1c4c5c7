//! Stored certificates that issue each other, held, with permission 36 alone and no region.

use super::stores::Fields;

/// 100 to 1,000.
pub fn root(id: u64) -> Fields {
    Fields {
        issuer: 0,
        kind: 4,
        end: 1_000,
        ..Fields::new(id)
    }
}

/// 100 to 900.
pub fn authority(id: u64, issuer: u64) -> Fields {
    Fields {
        issuer,
        ..Fields::new(id)
    }
}

pub fn ticket(id: u64, issuer: u64, start: u64, end: u64) -> Fields {
    Fields {
        issuer,
        kind: 1,
        start,
        end,
        ..Fields::new(id)
    }
}

/// Root 1, then authorities 2, 3 and so on, each issued by the one before it.
pub fn chain(length: u64) -> Vec<Fields> {
    let authorities = (2..=length).map(|id| authority(id, id - 1));
    std::iter::once(root(1)).chain(authorities).collect()
}

/// "Each id is its octet eight times."
pub fn eight_times(octet: u8) -> u64 {
    u64::from_be_bytes([octet; 8])
}

/// The store of document 01, "The page program", slots 0 to 5.
pub fn example() -> Vec<Fields> {
    let [one, two, three, four, five, six] = [1, 2, 3, 4, 5, 6].map(eight_times);
    let named = |id| {
        let mut fields = authority(id, one);
        fields.name_length = 2;
        fields.name[..2].copy_from_slice(b"B1");
        fields
    };
    vec![
        root(one),
        named(two),
        ticket(three, two, 200, 300),
        ticket(four, two, 250, 400),
        named(five),
        ticket(six, five, 200, 300),
    ]
}
