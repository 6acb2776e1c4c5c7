//! A store: how it starts, what it holds, and that a refusal leaves it alone.

#[allow(dead_code)] // what other tests use of it
mod sample;

use nattveldi::Verdict::{Bad, Good};
use nattveldi::{id, Refusal, Second, State, Store, SLOTS, STORE_LENGTH};

/// 64 roots, each under its own name.
fn full() -> Store {
    let mut store = Store::new();
    for slot in 0..SLOTS {
        let root = sample::root(&slot.to_string());
        store.install(&root, Good).expect("a root");
    }
    store
}

#[test]
fn holds_64() {
    let mut store = full();
    assert_eq!(store.iter().count(), SLOTS);
    for (expected, (slot, certificate)) in store.iter().enumerate() {
        assert_eq!(slot, expected);
        assert_eq!(certificate.name, slot.to_string().as_bytes());
        let root = sample::root(&slot.to_string());
        assert_eq!(id(&root), Ok(certificate.id));
        assert_eq!(store.find(certificate.id), Some((slot, certificate)));
    }
    let before = store.clone();
    let one_more = sample::root("one more");
    assert_eq!(store.install(&one_more, Good), Err(Refusal::Full));
    assert_eq!(store, before);
}

/// A withdrawn certificate is found and gone through as before.
#[test]
fn keeps_what_is_withdrawn() {
    let mut store = sample::store();
    let authority = store.slot(1).expect("filled").id;
    let asked = store.ask(authority, Second(250)).expect("held");
    store.withdraw(asked).expect("nothing has changed");
    let states: Vec<State> = store.iter().map(|(_, c)| c.state).collect();
    assert_eq!(states, [State::Held, State::Withdrawn, State::Held]);
    let (slot, found) = store.find(authority).expect("stored");
    assert_eq!((slot, found.state), (1, State::Withdrawn));
}

#[test]
fn is_made_from_its_octets() {
    for store in [Store::default(), sample::store(), full()] {
        assert_eq!(Store::from_octets(store.as_octets()).as_ref(), Ok(&store));
    }
    let octets = full().as_octets().to_vec();
    let longer = [&octets[..], &[0]].concat();
    for other in [&[][..], &octets[1..], &longer] {
        assert_eq!(Store::from_octets(other), Err(Refusal::BadCall));
    }
}

/// An octet of an empty slot is set: in the first, in the last.
#[test]
fn is_not_made_from_a_bad_store() {
    let good = sample::store();
    for at in [STORE_LENGTH / SLOTS * 3, STORE_LENGTH - 1] {
        let mut octets = *good.as_octets();
        octets[at] = 1;
        assert_eq!(Store::from_octets(&octets), Err(Refusal::BadStore), "{at}");
    }
}

#[test]
fn a_refusal_leaves_it_alone() {
    let mut store = sample::store();
    let before = store.clone();
    let authority = store.slot(1).expect("filled").id;
    let ticket = sample::ticket("other", authority);
    assert_eq!(store.admit(&ticket, Bad), Err(Refusal::Signature));
    assert_eq!(store.install(&ticket, Good), Err(Refusal::WrongKind));
    let root = sample::root("other");
    assert_eq!(store.install(&root, Bad), Err(Refusal::Signature));
    assert_eq!(store.admit(&root, Good), Err(Refusal::WrongKind));
    assert_eq!(store, before);
}

/// The slots that are filled, and what is in them.
#[test]
fn is_shown_by_its_certificates() {
    assert_eq!(format!("{:?}", Store::new()), "{}");
    let store = sample::store();
    let text = format!("{store:?}");
    assert!(text.starts_with("{0: Stored { id: Id("), "{text}");
    for (slot, certificate) in &store {
        let entry = format!("{slot}: Stored {{ id: Id({})", certificate.id);
        assert!(text.contains(&entry), "{text}");
    }
}
