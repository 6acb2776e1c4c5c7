//! Chains by hand, below a signer that is named by id or whose certificate the
//! message carries.

use difftest::entry::{Entry, HELD, WITHDRAWN};
use difftest::plan::{AUTHORITY, ROOT, TICKET};

use crate::by_hand::{below, chain, number, plain, scene, BOTH};

const MOST: u8 = 8;

/// A root alone is no ticket; up to eight are accepted, more are 18.
#[test]
fn lengths() {
    for carried in BOTH {
        for length in 2..=20 {
            let expected = if length <= MOST { 0 } else { 18 };
            let given = number(below(chain(length), carried));
            assert_eq!(given, expected, "a chain of {length}");
        }
        for kind in [AUTHORITY, ROOT] {
            let mut alone = chain(2);
            alone.signer = plain(kind, 2, 1);
            assert_eq!(number(below(alone, carried)), 10, "kind {kind}");
        }
    }
}

/// One link of a chain is changed: the number, by its place counted from the
/// root and by the chain's length.
fn check(change: fn(&mut Entry), expected: fn(usize, u8) -> u8) {
    for carried in BOTH {
        for length in 2..=MOST {
            for link in 0..usize::from(length) - 1 {
                let mut chain = chain(length);
                change(&mut chain.above[link]);
                let given = number(below(chain, carried));
                let told = format!("link {link} of {length}, {carried}");
                assert_eq!(given, expected(link, length), "{told}");
            }
        }
    }
}

#[test]
fn links() {
    check(|link| link.state = WITHDRAWN, |_, _| 8);
    check(|link| link.id = [0xee; 8], |_, _| 7);
    check(|link| link.kind = TICKET, |_, _| 10);
    check(|link| link.permissions.clear(), |_, _| 11);
    check(|link| link.start = 101, |_, _| 12);
    check(|link| link.end = 999, |_, _| 12);
    check(|link| link.rectangles = vec![[1, -1, -1, 1]], |_, _| 13);
    check(|link| link.parity ^= 1, |_, _| 0);
    let above_all = |link, _| if link == 0 { 0 } else { 11 };
    check(|link| link.permissions = vec![37, 36, 36], above_all);
    check(|link| (link.kind, link.issuer) = (ROOT, [0; 8]), |_, _| 0);
    // Without a root, a certificate without an issuer is at the end.
    let no_root = |link, length| match (link, length) {
        (0, MOST) => 18,
        (0, _) => 7,
        _ => 0,
    };
    check(|link| link.kind = AUTHORITY, no_root);
}

/// What is wrong with a step comes before what is wrong with the issuer, and
/// the eighth certificate before its issuer.
#[test]
fn steps_come_before_issuers() {
    type Change = fn(&mut Entry);
    let steps: [(u8, Change); 5] = [
        (10, |issuer| issuer.kind = TICKET),
        (11, |issuer| issuer.permissions = vec![37]),
        (12, |issuer| issuer.end = 600),
        (12, |issuer| (issuer.start, issuer.end) = (600, 700)),
        (13, |issuer| issuer.rectangles = vec![[9, 8, 7, 9]]),
    ];
    for carried in BOTH {
        for (expected, step) in steps {
            let mut chain = chain(3);
            step(&mut chain.above[1]);
            chain.above[1].state = WITHDRAWN;
            assert_eq!(number(below(chain, carried)), expected, "{carried}");
        }
        let mut chain = chain(9);
        chain.above.remove(0);
        assert_eq!(number(below(chain, carried)), 18, "{carried}");
    }
}

/// From the highest certificate to itself or to one below it.
#[test]
fn rings() {
    for carried in BOTH {
        for length in 2..=9 {
            for back in 1..length {
                let mut chain = chain(length);
                chain.above[0].kind = AUTHORITY;
                chain.above[0].issuer = [back; 8];
                let given = number(below(chain, carried));
                assert_eq!(given, 18, "{length}, back to {back}");
            }
        }
    }
    // Back to the signer, which is a ticket.
    let mut scene = scene(false);
    scene.chain.above[0].kind = AUTHORITY;
    scene.chain.above[0].issuer = scene.id;
    assert_eq!(number(scene), 10);
}

/// The id zero is that of the empty slots, which are never found.
#[test]
fn id_zero() {
    for carried in BOTH {
        let mut chain = chain(3);
        chain.signer.issuer = [0; 8];
        assert_eq!(number(below(chain.clone(), carried)), 7);
        chain.above[1].id = [0; 8];
        assert_eq!(number(below(chain, carried)), 0);
    }
    let mut scene = scene(false);
    scene.id = [0; 8];
    assert_eq!(number(scene.clone()), 0);
    scene.stored = None;
    assert_eq!(number(scene), 7);
}

/// A signer that is withdrawn and no ticket is 10 by id, and 8 if the message
/// carries its certificate.
#[test]
fn withdrawn_signers() {
    for (carried, kind, expected) in [
        (false, TICKET, 8),
        (false, AUTHORITY, 10),
        (false, ROOT, 10),
        (true, TICKET, 8),
        (true, AUTHORITY, 8),
        (true, ROOT, 8),
    ] {
        let mut scene = scene(carried);
        scene.chain.signer.kind = kind;
        scene.stored = Some(WITHDRAWN);
        assert_eq!(number(scene), expected, "{carried}, kind {kind}");
    }
    for kind in [AUTHORITY, ROOT] {
        let mut scene = scene(true);
        scene.chain.signer.kind = kind;
        scene.stored = Some(HELD);
        assert_eq!(number(scene), 10, "kind {kind}");
    }
}
