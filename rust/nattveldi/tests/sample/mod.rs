// Certificates, a store and messages for the tests and for the examples of the
// documentation, which include this file. The signatures are all zero: where a
// verdict is wanted, it is given.

use std::ops::Range;

use nattveldi::{id, Id, Microseconds, Position, Rectangle, Situation, Store, Verdict};

/// Version 2, signed by itself, a root.
const ROOT: &[u8] = &[2, 0, 4];
const AUTHORITY: u8 = 2;
const TICKET: u8 = 1;
/// ITS-AID 36, in a root or an authority.
const PERMISSIONS: &[u8] = &[32, 1, 36];
/// The same with an empty SSP, in a ticket.
const TICKET_PERMISSIONS: &[u8] = &[33, 2, 36, 0];
const SECONDS: Range<u32> = 0..1_000;
const EVERYWHERE: &[u8] = &[];

/// A root for permission 36, valid everywhere in seconds 0 to 999.
pub fn root(name: &str) -> Vec<u8> {
    certificate(ROOT, name, PERMISSIONS, &SECONDS, EVERYWHERE)
}

/// A root that is valid in a rectangle.
pub fn root_in(land: Rectangle) -> Vec<u8> {
    certificate(ROOT, "", PERMISSIONS, &SECONDS, &region(land))
}

/// An authority as wide as its issuer.
pub fn authority(name: &str, issuer: Id) -> Vec<u8> {
    let head = below(issuer, AUTHORITY);
    certificate(&head, name, PERMISSIONS, &SECONDS, EVERYWHERE)
}

/// A ticket as wide as its issuer.
pub fn ticket(name: &str, issuer: Id) -> Vec<u8> {
    ticket_at(name, issuer, SECONDS)
}

/// A ticket for these seconds.
pub fn ticket_at(name: &str, issuer: Id, seconds: Range<u32>) -> Vec<u8> {
    let head = below(issuer, TICKET);
    certificate(&head, name, TICKET_PERMISSIONS, &seconds, EVERYWHERE)
}

/// A ticket for a rectangle and these seconds.
pub fn ticket_in(name: &str, issuer: Id, land: Rectangle, seconds: Range<u32>) -> Vec<u8> {
    let head = below(issuer, TICKET);
    certificate(&head, name, TICKET_PERMISSIONS, &seconds, &region(land))
}

/// Version 2, signed by an issuer, and the kind.
fn below(issuer: Id, kind: u8) -> Vec<u8> {
    [&[2, 1], &issuer.as_octets()[..], &[kind]].concat()
}

/// Behind its head: the name, a key and permissions, a period and a region, and
/// the signature.
fn certificate(
    head: &[u8],
    name: &str,
    permissions: &[u8],
    seconds: &Range<u32>,
    region: &[u8],
) -> Vec<u8> {
    let key = [&[0, 0, 3][..], &[7; 32]].concat(); // with an odd y
    let [start, end] = [seconds.start, seconds.end].map(u32::to_be_bytes);
    let vectors = [
        name.as_bytes().to_vec(),
        [&key[..], permissions].concat(),
        [&[1], &start[..], &end, region].concat(),
    ];
    let vectors = vectors.map(|octets| [length_of(&octets), octets].concat());
    [head, &vectors.concat(), &[0; 66]].concat()
}

fn region(land: Rectangle) -> Vec<u8> {
    let edges = [land.north, land.west, land.south, land.east];
    [&[3, 2, 16][..], &edges.map(i32::to_be_bytes).concat()].concat()
}

/// A root in slot 0, an authority below it in slot 1, and a ticket below that in
/// slot 2.
pub fn store() -> Store {
    let root = root("R");
    let authority = authority("A", id(&root).expect("a root"));
    let ticket = ticket("T", id(&authority).expect("an authority"));
    let mut store = Store::new();
    store.install(&root, Verdict::Good).expect("a root");
    store
        .admit(&authority, Verdict::Good)
        .expect("an authority");
    store.admit(&ticket, Verdict::Good).expect("a ticket");
    store
}

/// A message "hello" by the ticket of the store, which it names by id.
pub fn message() -> Vec<u8> {
    let ticket = store().slot(2).expect("a ticket").id;
    message_by(&[&[1], &ticket.as_octets()[..]].concat())
}

/// A message "hello" that carries its signer's certificate.
pub fn message_with(ticket: &[u8]) -> Vec<u8> {
    message_by(&[&[2], ticket].concat())
}

/// Generated in second 250, under permission 36.
fn message_by(signer: &[u8]) -> Vec<u8> {
    let time = 250_000_000_u64.to_be_bytes();
    let headers = [&[128], signer, &[0], &time, &[5, 36]].concat();
    let payload = [&[1, 5][..], b"hello"].concat();
    [
        &[2],
        &length_of(&headers)[..],
        &headers,
        &payload,
        &[67, 1],
        &[0; 66],
    ]
    .concat()
}

/// 7 bits in one octet, or else 14 in two, the first of which starts with 10.
fn length_of(octets: &[u8]) -> Vec<u8> {
    let length = u16::try_from(octets.len()).expect("fewer than 16,384 octets");
    match length.to_be_bytes() {
        [0, low @ ..128] => vec![low],
        [high, low] => vec![0x80 | high, low],
    }
}

/// When the message was generated, somewhere.
pub fn situation() -> Situation {
    let position = Position::new(0, 0).expect("in range");
    Situation::new(Microseconds(250_000_000), position)
}
