//! Every set of faults in one step of a walk: the first in the paper's order is the answer
//! (document 01, "How a chain is walked"; open point 25).

mod common;

use common::chains::*;
use common::sets::{first, sets};
use common::stores::*;
use reference::{decode, walk};

#[derive(Clone, Copy, PartialEq)]
enum Fault {
    Withdrawn,
    Second,
    Position,
    Eighth,
    IssuerUnknown,
    IssuerTicket,
    Permission,
    Period,
    Region,
    IssuerWithdrawn,
}

/// The faults of the signer and its issuer, with their answers.
const SIGNER: [(Fault, u8); 9] = [
    (Fault::Withdrawn, 8),
    (Fault::Second, 12),
    (Fault::Position, 13),
    (Fault::IssuerUnknown, 7),
    (Fault::IssuerTicket, 10),
    (Fault::Permission, 11),
    (Fault::Period, 12),
    (Fault::Region, 13),
    (Fault::IssuerWithdrawn, 8),
];

/// The same of a certificate further up: the second and the place are inside its period and its
/// region if they are inside those of the certificate below it.
const EIGHTH: [(Fault, u8); 8] = [
    (Fault::Withdrawn, 8),
    (Fault::Eighth, 18),
    (Fault::IssuerUnknown, 7),
    (Fault::IssuerTicket, 10),
    (Fault::Permission, 11),
    (Fault::Period, 12),
    (Fault::Region, 13),
    (Fault::IssuerWithdrawn, 8),
];

/// Authority 3, issued by 2, 200 to 300, in a region; with the faults of its own.
fn subject(faults: &[Fault]) -> Fields {
    let mut subject = authority(3, 2);
    (subject.start, subject.end) = (200, 300);
    (subject.rectangle_count, subject.rectangles[0]) = (1, [10, -10, -10, 10]);
    if faults.contains(&Fault::Withdrawn) {
        subject.state = 2;
    }
    subject
}

/// Authority 2, issued by the root 1, 100 to 900, everywhere, but for the faults.
fn issuer(faults: &[Fault]) -> Fields {
    let mut issuer = authority(2, 1);
    for fault in faults {
        match fault {
            Fault::IssuerUnknown => issuer.id = 77,
            Fault::IssuerTicket => issuer.kind = 1,
            Fault::Permission => issuer.permissions[0] = 37,
            Fault::Period => issuer.end = 299,
            Fault::Region => (issuer.rectangle_count, issuer.rectangles[0]) = (1, [9, -9, -9, 9]),
            Fault::IssuerWithdrawn => issuer.state = 2,
            _ => {}
        }
    }
    issuer
}

#[test]
fn at_the_signer() {
    let mut answers = [0; 19];
    for (faults, numbers) in sets(&SIGNER) {
        let expected = first(&numbers);
        let mut above = root(1);
        above.permission_count = 2;
        above.permissions[1] = 37;
        let store = store_of(&[issuer(&faults), above, subject(&[])]);
        let second = 250 + 50 * u64::from(faults.contains(&Fault::Second));
        let latitude = 10 + i32::from(faults.contains(&Fault::Position));
        let signer = decode(&subject(&faults).slot());
        let found = walk(&store, &signer, second, Some((latitude, -10)));
        assert_eq!(found.err().unwrap_or(0), expected);
        answers[usize::from(expected)] += 1;
    }
    assert_eq!(answers[0], 1);
    assert_eq!(answers.iter().sum::<u32>(), 512);
}

/// The subject is the seventh certificate of the walk and its issuer, a root, the eighth; with the
/// fault "eighth" there is one certificate more below.
#[test]
fn at_the_seventh_and_the_eighth() {
    let mut answers = [0; 19];
    for (faults, numbers) in sets(&EIGHTH) {
        let expected = first(&numbers);
        let below = if faults.contains(&Fault::Eighth) {
            7
        } else {
            6
        };
        let mut slots = vec![subject(&faults)];
        for number in 0..below {
            let mut fields = subject(&[]);
            (fields.id, fields.issuer) = (100 + number, 99 + number);
            if number == 0 {
                fields.issuer = 3;
            }
            slots.push(fields);
        }
        let signer = decode(&slots[below as usize].slot());
        let mut top = issuer(&faults);
        if top.kind == 2 {
            (top.kind, top.issuer) = (4, 0);
        }
        slots.push(top);
        let found = walk(&store_of(&slots), &signer, 250, Some((10, -10)));
        assert_eq!(found.err().unwrap_or(0), expected);
        answers[usize::from(expected)] += 1;
    }
    assert_eq!((answers[0], answers[18]), (1, 64));
    assert_eq!(answers.iter().sum::<u32>(), 256);
}

/// A root is tested for 8, 12 and 13, in this order, and for nothing else.
#[test]
fn at_a_root() {
    let order = &SIGNER[..3];
    for (faults, numbers) in sets(order) {
        let expected = first(&numbers);
        let mut fields = subject(&faults);
        (fields.kind, fields.issuer) = (4, 0);
        let second = 199 + u64::from(!faults.contains(&Fault::Second));
        let longitude = 10 + i32::from(faults.contains(&Fault::Position));
        let signer = decode(&fields.slot());
        // Slot 0 has the id zero, which a root's issuer is; it would refuse.
        let mut zero = authority(0, 0);
        zero.permissions[0] = 37;
        let found = walk(&store_of(&[zero]), &signer, second, Some((0, longitude)));
        assert_eq!(found.err().unwrap_or(0), expected);
    }
}
