//! The operations as the documentation of 1.1.0 showed them, where each was a
//! function over octets: the same certificates and messages, the same answers.

use nattveldi::Verdict::{Bad, Good};
use nattveldi::{id, raw, Id, Kind, Microseconds, NotWithdrawn, Part, PointType, Position};
use nattveldi::{Rectangle, Refusal, Second, Situation, State, Store, Verdicts, SLOTS};

/// Asks and withdraws at once. Whether it is refused is the same at every second.
fn withdraw(store: &mut Store, id: Id) -> Result<(), Refusal> {
    let asked = store.ask(id, Second(0))?;
    store.withdraw(asked).map_err(|fault| match fault {
        NotWithdrawn::Refused(refusal) => refusal,
        NotWithdrawn::Changed { .. } => panic!("nothing changed in between: {fault}"),
    })
}

/// A root without a name and permissions, to second 1,000.
fn lone_root() -> Vec<u8> {
    let mut root = vec![2, 0, 4, 0, 37, 0, 0, 2];
    root.extend([7; 32]);
    root.extend([32, 0, 5, 0, 0, 0, 3, 232]);
    root.extend([0; 66]);
    root
}

/// What follows version, signer and kind: no name, a key, an empty list of
/// permissions of this type, an end, and the signature.
fn plain(list: u8, end: u8) -> Vec<u8> {
    let mut octets = vec![0, 37, 0, 0, 2];
    octets.extend([7; 32]);
    octets.extend([list, 0, 5, 0, 0, 0, 0, end]);
    octets.extend([0; 66]);
    octets
}

fn plain_root(end: u8) -> Vec<u8> {
    [vec![2, 0, 4], plain(32, end)].concat()
}

fn plain_ticket(issuer: Id, end: u8) -> Vec<u8> {
    [&[2, 1], &issuer.as_octets()[..], &[1], &plain(33, end)].concat()
}

#[test]
fn empty_store() {
    let mut store = Store::new();
    assert_eq!(store.install(&[], Good), Err(Refusal::Cut));
    let mut octets = *store.as_octets();
    octets[0] = 1; // an empty slot is all zero
    let bad = Refusal::BadStore;
    assert_eq!(raw::install(&mut octets, &[], 1), bad.number());
    assert_eq!(Store::from_octets(&octets), Err(bad));
}

#[test]
fn install() -> Result<(), Refusal> {
    let (mut store, root) = (Store::new(), lone_root());
    assert_eq!(store.install(&root, Bad), Err(Refusal::Signature));
    assert_eq!(store, Store::new());
    store.install(&root, Good)?;
    assert_eq!(store.slot(0)?.id, id(&root)?);
    assert_eq!(store.install(&root, Good), Err(Refusal::AlreadyHeld));
    Ok(())
}

#[test]
fn admit() -> Result<(), Refusal> {
    let root = plain_root(100);
    let ticket = plain_ticket(id(&root)?, 100);

    let mut store = Store::new();
    assert_eq!(store.admit(&ticket, Good), Err(Refusal::Unknown));
    store.install(&root, Good)?;
    store.admit(&ticket, Good)?;
    assert_eq!(store.slot(1)?.id, id(&ticket)?);

    let longer = plain_ticket(id(&root)?, 101);
    assert_eq!(store.admit(&longer, Good), Err(Refusal::OutsidePeriod));
    let second = plain_ticket(id(&ticket)?, 50);
    assert_eq!(store.admit(&second, Good), Err(Refusal::WrongKind));
    Ok(())
}

/// What each field of a slot is, with a region, and permissions that are some of
/// the issuer's.
#[test]
fn stored() -> Result<(), Refusal> {
    let rest = |name: &[u8], permissions: &[u8], restrictions: &[u8]| {
        let mut octets = vec![name.len() as u8];
        octets.extend(name);
        octets.extend([35 + permissions.len() as u8, 0, 0, 3]); // a key with an odd y ..
        octets.extend([7; 32]);
        octets.extend(permissions); // .. and permissions
        octets.push(restrictions.len() as u8);
        octets.extend(restrictions);
        octets.extend([0; 66]);
        octets
    };
    let end = [0, 0, 0, 3, 232]; // second 1,000
    let root = [vec![2, 0, 4], rest(b"R", &[32, 2, 36, 37], &end)].concat();
    let edges = [[0, 0, 0, 9], [255; 4], [0; 4], [0, 0, 0, 8]].concat();
    let region = [&[3, 2, 16][..], &edges].concat();
    let restrictions = [&[1, 0, 0, 0, 100], &end[1..], &region].concat();
    let ticket = rest(b"T", &[33, 2, 37, 0], &restrictions);
    let ticket = [&[2, 1], &id(&root)?.as_octets()[..], &[1], &ticket].concat();
    let mut store = Store::new();
    store.install(&root, Good)?;
    store.admit(&ticket, Good)?;

    let held = store.slot(1)?;
    assert_eq!((held.id, held.issuer), (id(&ticket)?, Some(id(&root)?)));
    assert_eq!((held.state, held.kind), (State::Held, Kind::Ticket));
    assert_eq!((held.start, held.end), (Second(100), 1_000));
    assert_eq!(
        (&held.name[..], &held.permissions[..]),
        (&b"T"[..], &[37][..])
    );
    assert_eq!(
        (held.point_type, held.key),
        (PointType::CompressedY1, [7; 32])
    );
    let land = Rectangle {
        north: 9,
        west: -1,
        south: 0,
        east: 8,
    };
    assert_eq!(held.region.rectangles(), [land]);
    assert_eq!(store.slot(0)?.issuer, None); // a root

    withdraw(&mut store, held.id)?;
    assert_eq!(store.slot(1)?.state, State::Withdrawn);
    assert_eq!(store.slot(2), Err(Refusal::Unknown)); // an empty slot
    assert_eq!(store.slot(SLOTS), Err(Refusal::BadCall));
    Ok(())
}

#[test]
fn standing() -> Result<(), Refusal> {
    let root = plain_root(100);
    let ticket = plain_ticket(id(&root)?, 50);
    let mut store = Store::new();
    store.install(&root, Good)?;
    store.admit(&ticket, Good)?;

    assert_eq!(store.standing(Second(49)), [0, 1]);
    assert_eq!(store.standing(Second(50)), [0]); // the ticket's period is over
    for slot in store.standing(Second(50)) {
        assert_eq!(store.slot(slot)?.id, id(&root)?);
    }
    withdraw(&mut store, id(&root)?)?;
    assert!(store.standing(Second(49)).is_empty()); // the ticket fell with it
    let mut octets = *store.as_octets();
    octets[16] = 0; // now slot 0 is called empty, and is not all zero
    let bad = Refusal::BadStore;
    assert_eq!(
        raw::standing(&octets, 49, &mut [0; SLOTS]),
        -i32::from(bad.number())
    );
    assert_eq!(Store::from_octets(&octets), Err(bad));
    Ok(())
}

#[test]
fn list() -> Result<(), Refusal> {
    let root = plain_root(100);
    let ticket = plain_ticket(id(&root)?, 100);
    let mut store = Store::new();
    store.install(&root, Good)?;
    store.admit(&ticket, Good)?;

    let slots = store.list(id(&root)?, Second(99))?;
    assert_eq!(slots, [0, 1]);
    for (slot, certificate) in slots.into_iter().zip([&root, &ticket]) {
        assert_eq!(store.slot(slot)?.id, id(certificate)?);
    }
    assert_eq!(store.list(id(&ticket)?, Second(99))?, [1]);
    assert!(store.list(id(&root)?, Second(100))?.is_empty()); // nothing stands then

    withdraw(&mut store, id(&root)?)?;
    assert_eq!(store.list(id(&root)?, Second(99)), Err(Refusal::Withdrawn));
    assert!(store.list(id(&ticket)?, Second(99))?.is_empty()); // it fell with the root
    Ok(())
}

#[test]
fn withdrawal() -> Result<(), Refusal> {
    let (mut store, root) = (Store::new(), lone_root());
    assert_eq!(withdraw(&mut store, id(&root)?), Err(Refusal::Unknown));
    store.install(&root, Good)?;
    withdraw(&mut store, id(&root)?)?;
    assert_eq!(withdraw(&mut store, id(&root)?), Err(Refusal::Withdrawn));
    assert_eq!(store.install(&root, Good), Err(Refusal::AlreadyHeld));
    Ok(())
}

/// A root for permission 36 and a ticket below it, each with a key of its own.
fn chain() -> Result<[Vec<u8>; 2], Refusal> {
    let rest = |key, permissions: &[u8]| {
        let mut octets = vec![0, 35 + permissions.len() as u8, 0, 0, 3]; // no name; a key ..
        octets.extend([key; 32]);
        octets.extend(permissions);
        octets.extend([5, 0, 0, 0, 3, 232]); // .. to second 1,000
        octets.extend([0; 66]);
        octets
    };
    let root = [vec![2, 0, 4], rest(7, &[32, 1, 36])].concat();
    let below = rest(8, &[33, 2, 36, 0]);
    let ticket = [&[2, 1], &id(&root)?.as_octets()[..], &[1], &below].concat();
    Ok([root, ticket])
}

/// A message "hello" by this signer, generated in second 250 under permission
/// 36; its headers have this length.
fn message(length: &[u8], signer: &[u8]) -> Vec<u8> {
    let mut message = [&[2], length, &[128], signer, &[0]].concat();
    message.extend(250_000_000_u64.to_be_bytes());
    message.extend([5, 36]);
    message.extend([1, 5]);
    message.extend(b"hello");
    message.extend([67, 1]);
    message.extend([0; 66]);
    message
}

/// At the equator, west of Africa.
fn at(now: u64) -> Situation {
    let position = Position::new(0, 0).expect("in range");
    Situation::new(Microseconds(now), position)
}

/// The message's question has the ticket's key, the certificate's the root's.
#[test]
fn prepare() -> Result<(), Refusal> {
    let [root, ticket] = chain()?;
    let mut store = Store::new();
    store.install(&root, Good)?;
    // Headers of 137 octets, 124 of them the ticket.
    let message = message(&[0x80, 13 + 124], &[&[2], &ticket[..]].concat());

    let questions = store.prepare(&message, &at(250_000_000))?;
    let asked = questions.message();
    assert_eq!(
        asked.signed,
        Part {
            start: 0,
            length: message.len() - 66
        }
    );
    assert_eq!(asked.signature.of(&message), [0; 66]);
    assert_eq!(
        (asked.point_type, asked.key),
        (PointType::CompressedY1, [8; 32])
    );
    let [asked] = questions.certificates() else {
        panic!("the message carries a certificate")
    };
    assert_eq!(asked.signed.of(&message), &ticket[..124 - 66]);
    assert_eq!(
        asked.signature,
        Part {
            start: 5 + 124 - 66,
            length: 66
        }
    );
    assert_eq!(
        (asked.point_type, asked.key),
        (PointType::CompressedY1, [7; 32])
    );

    let late = at(252_000_001);
    assert_eq!(store.prepare(&message, &late), Err(Refusal::OutOfDate));
    Ok(())
}

#[test]
fn decide() -> Result<(), Refusal> {
    let [root, ticket] = chain()?;
    let mut store = Store::new();
    store.install(&root, Good)?;
    store.admit(&ticket, Good)?;
    // Headers of 21 octets.
    let message = message(&[21], &[&[1], &id(&ticket)?.as_octets()[..]].concat());

    let here = at(250_000_000);
    let verdicts =
        |message, certificate| Verdicts::on_message(message).and_certificate(certificate);
    let decision = store.decide(&message, &here, &verdicts(Good, Bad))?;
    assert_eq!(decision.payload.of(&message), b"hello");
    assert_eq!(decision.signer, id(&ticket)?);
    let time = Microseconds(250_000_000);
    assert_eq!((decision.permission, decision.generation_time), (36, time));

    let refused = store.decide(&message, &here, &verdicts(Bad, Good));
    assert_eq!(refused, Err(Refusal::Signature));
    withdraw(&mut store, id(&root)?)?;
    let refused = store.decide(&message, &here, &verdicts(Good, Good));
    assert_eq!(refused, Err(Refusal::Withdrawn));
    Ok(())
}
