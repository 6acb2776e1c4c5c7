//! Certificates and stores by hand.

use crate::entry::{self, Entry, Slots, HELD};
use crate::plan::{AUTHORITY, ROOT, TICKET};

/// A held certificate as in the paper's example: permission 36 alone, no
/// region, key and parity zero, no name; each id is its octet eight times.
pub fn plain(kind: u8, id: u8, issuer: u8, start: u32, end: u64) -> Entry {
    Entry {
        id: [id; 8],
        issuer: [issuer; 8],
        state: HELD,
        kind,
        start,
        end,
        name: Vec::new(),
        parity: 0,
        key: [0; 32],
        rectangles: Vec::new(),
        permissions: vec![36],
    }
}

/// The store of "The page program" in paper 01.
pub fn of_the_paper() -> Slots {
    let named = |entry| Entry {
        name: b"B1".to_vec(),
        ..entry
    };
    let entries = [
        plain(ROOT, 1, 0, 100, 1_000),
        named(plain(AUTHORITY, 2, 1, 100, 900)),
        plain(TICKET, 3, 2, 200, 300),
        plain(TICKET, 4, 2, 250, 400),
        named(plain(AUTHORITY, 5, 1, 100, 900)),
        plain(TICKET, 6, 5, 200, 300),
    ];
    entry::at(entries.into_iter().enumerate())
}

/// A root, authorities and a ticket, each below the one before it, with ids 1,
/// 2 and so on.
pub fn chain(length: u8) -> Vec<Entry> {
    let kind = |id| match id {
        1 => ROOT,
        _ if id == length => TICKET,
        _ => AUTHORITY,
    };
    let link = |id| plain(kind(id), id, id - 1, 100, 1_000);
    (1..=length).map(link).collect()
}
