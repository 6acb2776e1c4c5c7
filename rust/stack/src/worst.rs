//! Inputs that take as much as inputs can: the longest certificate, a store in
//! which no slot is empty and a chain has eight certificates, the longest
//! message.

use difftest::draft::Draft;
use difftest::entry::{self, Entry, HELD};
use difftest::plan::{Period, Permission, Plan, Point, Rectangle, AUTHORITY, ROOT, TICKET};
use difftest::slot::{SLOTS, SLOT_LENGTH};
use nattveldi::raw::Situation;

/// A message has at most so many octets.
const MOST_MESSAGE: usize = 2_048;

/// The first second of all periods, and the first after them.
const PERIOD: (u32, u32) = (100, 4_000_000_000);
/// A second at which all certificates are in their periods, and messages are
/// generated.
pub const SECOND: u32 = 1_000;
const MICROSECONDS: u64 = 1_000_000;

/// At that second, in the regions of all certificates.
pub const HERE: Situation = Situation {
    now: SECOND as u64 * MICROSECONDS,
    latitude: 0,
    longitude: 0,
    age: 0,
};

/// How many certificates a chain may have.
const CHAIN: usize = 8;

/// Ids of slots, the root's first.
pub fn id_of(slot: usize) -> [u8; 8] {
    [slot as u8 + 1; 8]
}

fn point(point_type: u8, octet: u8) -> Point {
    Point {
        point_type,
        x: [octet; 32],
    }
}

/// Sixteen permissions of four octets each.
fn its_aids() -> Vec<u32> {
    (0..16).map(|i| 268_435_455 - i).collect()
}

/// Four rectangles. The place 0, 0 lies in the last alone.
fn rectangles() -> Vec<Rectangle> {
    let mut rectangles = vec![[600_000_000, 10, 500_000_000, 20]; 3];
    rectangles.push([100, -100, -100, 100]);
    rectangles
}

/// The longest certificate of a kind; a root's is shorter, as is an authority's.
pub fn certificate(kind: u8, issuer: [u8; 8]) -> Vec<u8> {
    let permission = |its_aid| Permission {
        its_aid,
        ssp: vec![0x77; 31],
    };
    let plan = Plan {
        kind,
        issuer,
        name: vec![b'n'; 32],
        key: point(3, 0x11),
        encryption_key: Some(point(2, 0x22)),
        assurance: Some(0x83),
        permissions: its_aids().into_iter().map(permission).collect(),
        period: Period::StartAndEnd(PERIOD.0, PERIOD.1),
        region: Some(rectangles()),
        signature: point(3, 0x33),
        signature_s: [0x44; 32],
    };
    Draft::of(&plan).encode().octets()
}

fn entry(kind: u8, slot: usize, issuer: [u8; 8]) -> Entry {
    Entry {
        id: id_of(slot),
        issuer,
        state: HELD,
        kind,
        start: PERIOD.0,
        end: PERIOD.1.into(),
        name: vec![b'n'; 32],
        parity: 1,
        key: [0x11; 32],
        rectangles: rectangles(),
        permissions: its_aids(),
    }
}

/// Slot 0 has a root; slots 1 to 6 authorities, each below the one before; all
/// others tickets below the last of them, in chains of eight.
pub fn store() -> Vec<u8> {
    let slots = (0..SLOTS).map(|slot| match slot {
        0 => entry(ROOT, 0, [0; 8]),
        _ if slot < CHAIN - 1 => entry(AUTHORITY, slot, id_of(slot - 1)),
        _ => entry(TICKET, slot, last_authority()),
    });
    entry::store(&entry::at(slots.enumerate()))
}

/// The id of the seventh certificate from the root down.
pub fn last_authority() -> [u8; 8] {
    id_of(CHAIN - 2)
}

/// The store with its last slot empty.
pub fn store_with_room() -> Vec<u8> {
    let mut store = store();
    let end = store.len();
    store[end - SLOT_LENGTH..].fill(0);
    store
}

/// A message of 2,048 octets with every header, that names its signer by id.
pub fn message_by_id() -> Vec<u8> {
    let id = id_of(SLOTS - 1);
    message(&[&[1], &id[..]].concat())
}

/// The same with the longest certificate, which is not stored.
pub fn message_with_certificate() -> Vec<u8> {
    let certificate = certificate(TICKET, last_authority());
    message(&[&[2], &certificate[..]].concat())
}

/// Headers, a payload that fills the message, and a signature.
fn message(signer: &[u8]) -> Vec<u8> {
    let mut headers = vec![128];
    headers.extend(signer);
    headers.push(0);
    headers.extend(HERE.now.to_be_bytes());
    headers.push(1);
    headers.extend(HERE.now.to_be_bytes());
    headers.push(0);
    headers.push(2);
    headers.extend((SECOND + 60).to_be_bytes());
    headers.push(3);
    headers.extend([0; 10]);
    headers.extend([4, 120]);
    headers.extend([9; 120]);
    headers.push(5);
    headers.extend((0xe000_0000 | its_aids()[15]).to_be_bytes());

    let mut octets = vec![2];
    octets.extend(long_length(headers.len()));
    octets.extend(&headers);
    octets.push(1);
    let payload = MOST_MESSAGE - octets.len() - 2 - 68;
    octets.extend(long_length(payload));
    octets.extend(vec![b'p'; payload]);
    octets.extend([67, 1, 0, 3]);
    octets.extend([0x55; 64]);
    octets
}

/// The length of a vector as an IntX of two octets, from 128 on.
fn long_length(length: usize) -> [u8; 2] {
    assert!((128..1 << 14).contains(&length), "a length of two octets");
    (0x8000 | length as u16).to_be_bytes()
}

#[cfg(test)]
mod tests {
    use super::*;

    /// No certificate that reads has more than 841 octets: this is proved.
    #[test]
    fn inputs_are_the_longest() {
        assert_eq!(certificate(TICKET, [1; 8]).len(), 841);
        assert_eq!(message_by_id().len(), MOST_MESSAGE);
        assert_eq!(message_with_certificate().len(), MOST_MESSAGE);
        assert_eq!(store().len(), nattveldi::STORE_LENGTH);
    }
}
