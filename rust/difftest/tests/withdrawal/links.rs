//! One link of a chain changed, each by hand: what still stands, by the rules of
//! "How a chain is walked".

use difftest::entry::{self, Entry, Slots, WITHDRAWN};
use difftest::plan::{AUTHORITY, ROOT, TICKET};

use crate::stores::{listed, plain};

/// A root, an authority and a ticket below one another in slots 0 to 2.
type Three = [Entry; 3];
/// What falls with each of the three.
type Lists = [Result<Vec<u8>, u8>; 3];
type Change = fn(&mut Three);

fn three() -> Three {
    [
        Entry {
            permissions: vec![38, 37, 36],
            ..plain(ROOT, 1, 0, 100, 1_000)
        },
        Entry {
            rectangles: vec![[50, -80, -50, 80], [10, 100, 0, 200]],
            permissions: vec![36, 37, 38],
            ..plain(AUTHORITY, 2, 1, 100, 900)
        },
        Entry {
            rectangles: vec![[50, -80, -50, 80]],
            permissions: vec![36, 37],
            ..plain(TICKET, 3, 2, 200, 300)
        },
    ]
}

fn lists(three: Three) -> Lists {
    let slots: Slots = entry::at(three.into_iter().enumerate());
    [1, 2, 3].map(|id| listed(&slots, id, 220))
}

fn check(cases: &[(&str, Change)], expected: Lists) {
    for (what, change) in cases {
        let mut three = three();
        change(&mut three);
        assert_eq!(lists(three), expected, "{what}");
    }
}

#[test]
fn all_stand() {
    let cases: [(&str, Change); 10] = [
        ("nothing", |_| {}),
        ("order and repeats", |[_, _, ticket]| {
            ticket.permissions = vec![37, 37, 36, 37]
        }),
        ("no permissions", |[_, _, ticket]| {
            ticket.permissions.clear()
        }),
        ("the issuer's period", |[_, authority, ticket]| {
            (ticket.start, ticket.end) = (authority.start, authority.end)
        }),
        ("two rectangles in one", |[_, _, ticket]| {
            ticket.rectangles = vec![[1, -1, 0, 0], [50, -80, -50, 80]]
        }),
        ("the second rectangle", |[_, _, ticket]| {
            ticket.rectangles = vec![[10, 100, 0, 200]]
        }),
        ("both everywhere", |[_, authority, ticket]| {
            authority.rectangles.clear();
            ticket.rectangles.clear();
        }),
        ("bounded below everywhere", |[_, authority, _]| {
            authority.rectangles.clear()
        }),
        ("all bounded alike", |[root, authority, _]| {
            root.rectangles = authority.rectangles.clone()
        }),
        ("an authority at the end", |[_, _, ticket]| {
            ticket.kind = AUTHORITY
        }),
    ];
    check(&cases, [Ok(vec![0, 1, 2]), Ok(vec![1, 2]), Ok(vec![2])]);
}

/// The ticket does not stand, the authority does.
#[test]
fn the_last_does_not_stand() {
    let cases: [(&str, Change); 15] = [
        ("a permission more", |[_, _, ticket]| {
            ticket.permissions.push(39)
        }),
        ("a permission of the root alone", |[root, _, ticket]| {
            root.permissions.push(40);
            ticket.permissions.push(40);
        }),
        ("a start before the issuer's", |[_, _, ticket]| {
            ticket.start = 99
        }),
        ("an end after the issuer's", |[_, _, ticket]| {
            ticket.end = 901
        }),
        ("everywhere below bounded", |[_, _, ticket]| {
            ticket.rectangles.clear()
        }),
        ("north", |[_, _, ticket]| ticket.rectangles[0][0] += 1),
        ("west", |[_, _, ticket]| ticket.rectangles[0][1] -= 1),
        ("south", |[_, _, ticket]| ticket.rectangles[0][2] -= 1),
        ("east", |[_, _, ticket]| ticket.rectangles[0][3] += 1),
        ("one of two rectangles", |[_, _, ticket]| {
            ticket.rectangles.push([11, 100, 0, 200])
        }),
        ("an issuer that is not there", |[_, _, ticket]| {
            ticket.issuer = [9; 8]
        }),
        ("almost the issuer", |[_, _, ticket]| ticket.issuer[7] = 3),
        ("its own issuer", |[_, _, ticket]| {
            (ticket.kind, ticket.issuer) = (AUTHORITY, [3; 8])
        }),
        ("a period that is over", |[_, _, ticket]| ticket.end = 220),
        ("a period that is to come", |[_, _, ticket]| {
            ticket.start = 221
        }),
    ];
    check(&cases, [Ok(vec![0, 1]), Ok(vec![1]), Ok(vec![])]);
}

/// The authority does not stand, and with it neither does the ticket.
#[test]
fn the_middle_does_not_stand() {
    let cases: [(&str, Change); 5] = [
        ("a permission more", |[_, authority, _]| {
            authority.permissions.push(39)
        }),
        ("everywhere below bounded", |[root, authority, ticket]| {
            root.rectangles = authority.rectangles.clone();
            authority.rectangles.clear();
            ticket.rectangles.clear();
        }),
        ("an end after the root's", |[_, authority, _]| {
            authority.end = 1_001
        }),
        ("a ring of two", |[_, authority, ticket]| {
            authority.issuer = [3; 8];
            ticket.kind = AUTHORITY;
        }),
        ("the issuer zero", |[_, authority, _]| {
            authority.issuer = [0; 8]
        }),
    ];
    check(&cases, [Ok(vec![0]), Ok(vec![]), Ok(vec![])]);
}

#[test]
fn other_shapes() {
    let ticket_above: [(&str, Change); 1] = [("a ticket above a ticket", |[_, authority, _]| {
        authority.kind = TICKET
    })];
    check(&ticket_above, [Ok(vec![0, 1]), Ok(vec![1]), Ok(vec![])]);
    let two_roots: [(&str, Change); 1] = [("a root in the middle", |[_, authority, _]| {
        (authority.kind, authority.issuer) = (ROOT, [0; 8])
    })];
    check(&two_roots, [Ok(vec![0]), Ok(vec![1, 2]), Ok(vec![2])]);
    let no_root: [(&str, Change); 1] = [("no root at all", |[root, _, _]| root.kind = AUTHORITY)];
    check(&no_root, [Ok(vec![]), Ok(vec![]), Ok(vec![])]);
    let withdrawn: [(&str, Change); 1] =
        [("withdrawn", |[_, authority, _]| authority.state = WITHDRAWN)];
    check(&withdrawn, [Ok(vec![0]), Err(8), Ok(vec![])]);
    let no_anchor: [(&str, Change); 1] =
        [("withdrawn root", |[root, _, _]| root.state = WITHDRAWN)];
    check(&no_anchor, [Err(8), Ok(vec![]), Ok(vec![])]);
}
