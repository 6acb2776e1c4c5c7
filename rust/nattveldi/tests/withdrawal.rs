//! A withdrawal is done only as its page showed it.

#[allow(dead_code)] // what other tests use of it
mod sample;

use nattveldi::{id, Id, NotWithdrawn, Refusal, Second, State, Store, Verdict, Withdrawal};

const SECOND: Second = Second(250);

/// A store with a root, an authority and a ticket, and the ids of these.
fn store() -> (Store, [Id; 3]) {
    let store = sample::store();
    let id = |slot| store.slot(slot).expect("filled").id;
    let ids = [id(0), id(1), id(2)];
    (store, ids)
}

fn asked(store: &Store, id: Id) -> Withdrawal {
    store.ask(id, SECOND).expect("it is held")
}

fn admit(store: &mut Store, certificate: &[u8]) -> Id {
    store
        .admit(certificate, Verdict::Good)
        .expect("within its issuer's limits");
    id(certificate).expect("a certificate")
}

fn changed(appeared: &[Id], gone: &[Id]) -> NotWithdrawn {
    NotWithdrawn::Changed {
        appeared: appeared.to_vec(),
        gone: gone.to_vec(),
    }
}

/// Fails unless the store refuses the withdrawal so, and stays as it was.
fn check_refused(store: &mut Store, asked: Withdrawal, expected: &NotWithdrawn) {
    let before = store.clone();
    assert_eq!(store.withdraw(asked).as_ref(), Err(expected));
    assert_eq!(*store, before);
}

#[test]
fn as_shown() {
    let (mut store, [_, authority, ticket]) = store();
    let page = asked(&store, authority);
    let shown: Vec<Id> = page.certificates().iter().map(|c| c.id).collect();
    assert_eq!(shown, [authority, ticket]);
    store.withdraw(page).expect("nothing has changed");
    let state = |slot| store.slot(slot).expect("filled").state;
    assert_eq!(
        [0, 1, 2].map(state),
        [State::Held, State::Withdrawn, State::Held]
    );
    assert_eq!(store.standing(SECOND), [0]);
}

#[test]
fn a_ticket_was_admitted_below() {
    let (mut store, [root, authority, _]) = store();
    let pages = [root, authority].map(|id| asked(&store, id));
    let late = admit(&mut store, &sample::ticket("late", authority));
    let expected = changed(&[late], &[]);
    for page in pages {
        check_refused(&mut store, page, &expected);
    }
}

/// It is not on the page of the ticket beside it, and at the page's second it
/// does not stand.
#[test]
fn a_ticket_that_does_not_fall_was_admitted() {
    let (mut store, [_, authority, ticket]) = store();
    let page = asked(&store, ticket);
    admit(&mut store, &sample::ticket("beside", authority));
    store.withdraw(page).expect("the list has not changed");

    let page = asked(&store, authority);
    admit(
        &mut store,
        &sample::ticket_at("later", authority, 251..1_000),
    );
    store.withdraw(page).expect("the list has not changed");
}

#[test]
fn one_below_was_withdrawn() {
    let (mut store, [_, authority, ticket]) = store();
    let page = asked(&store, authority);
    let other = asked(&store, ticket);
    store.withdraw(other).expect("nothing has changed");
    let expected = changed(&[], &[ticket]);
    check_refused(&mut store, page, &expected);
}

/// The one that is asked for falls with its issuer, so the page shows what has
/// fallen already.
#[test]
fn its_issuer_was_withdrawn() {
    let (mut store, [root, authority, ticket]) = store();
    let page = asked(&store, authority);
    let other = asked(&store, root);
    store.withdraw(other).expect("nothing has changed");
    let expected = changed(&[], &[authority, ticket]);
    check_refused(&mut store, page, &expected);
    let page = asked(&store, authority);
    assert_eq!(page.certificates(), []);
    store.withdraw(page).expect("it is held all the same");
}

#[test]
fn it_was_withdrawn() {
    let (mut store, [_, authority, _]) = store();
    let pages = [(); 2].map(|()| asked(&store, authority));
    let [first, second] = pages;
    store.withdraw(first).expect("nothing has changed");
    let refused = NotWithdrawn::Refused(Refusal::Withdrawn);
    check_refused(&mut store, second, &refused);
}

#[test]
fn another_store() {
    let (store, [root, authority, ticket]) = store();
    let unknown = NotWithdrawn::Refused(Refusal::Unknown);
    check_refused(&mut Store::new(), asked(&store, root), &unknown);

    let mut other = Store::new();
    other
        .install(&sample::root("R"), Verdict::Good)
        .expect("a root");
    check_refused(&mut other, asked(&store, ticket), &unknown);
    let beside = admit(&mut other, &sample::ticket("beside", root));
    let expected = changed(&[beside], &[authority, ticket]);
    check_refused(&mut other, asked(&store, root), &expected);
}

/// What a page without a memory sends back, in any order and with repeats.
#[test]
fn as_a_page_says_that_it_showed() {
    let (mut store, [root, authority, ticket]) = store();
    let ask = |shown: &[Id]| store.ask_as_shown(authority, SECOND, shown);
    assert_eq!(ask(&[]), Err(changed(&[authority, ticket], &[])));
    assert_eq!(ask(&[authority]), Err(changed(&[ticket], &[])));
    assert_eq!(ask(&[authority, root]), Err(changed(&[ticket], &[root])));
    assert_eq!(ask(&[root, authority, ticket]), Err(changed(&[], &[root])));
    for shown in [[authority, ticket, ticket], [ticket, authority, authority]] {
        assert_eq!(ask(&shown), Ok(asked(&store, authority)));
    }
    let page = ask(&[ticket, authority]).expect("nothing has changed");
    store.withdraw(page).expect("nothing has changed");
    let again = store.ask_as_shown(authority, SECOND, &[authority, ticket]);
    assert_eq!(again, Err(NotWithdrawn::Refused(Refusal::Withdrawn)));
}
