//! Every set of faults at once: the first in the paper's order is the answer, and nothing is
//! written (document 01, "Order of checks").

mod common;

use common::sets::{first, sets};
use common::stores::*;
use common::*;
use reference::{admit, id, install};

/// The faults of install in the order of checks, with their answers.
const INSTALL: [(Fault, u8); 8] = [
    (Fault::StoreLength, 1),
    (Fault::BadStore, 2),
    (Fault::TooLong, 3),
    (Fault::LeftOver, 5),
    (Fault::Kind, 10),
    (Fault::Held, 17),
    (Fault::Verdict, 15),
    (Fault::Full, 16),
];

/// The same of admit.
const ADMIT: [(Fault, u8); 14] = [
    (Fault::StoreLength, 1),
    (Fault::BadStore, 2),
    (Fault::TooLong, 3),
    (Fault::LeftOver, 5),
    (Fault::Kind, 10),
    (Fault::Held, 17),
    (Fault::IssuerUnknown, 7),
    (Fault::IssuerWithdrawn, 8),
    (Fault::IssuerTicket, 10),
    (Fault::Permission, 11),
    (Fault::Period, 12),
    (Fault::Region, 13),
    (Fault::Verdict, 15),
    (Fault::Full, 16),
];

#[derive(Clone, Copy, PartialEq)]
enum Fault {
    StoreLength,
    BadStore,
    TooLong,
    LeftOver,
    Kind,
    Held,
    IssuerUnknown,
    IssuerWithdrawn,
    IssuerTicket,
    Permission,
    Period,
    Region,
    Verdict,
    Full,
}

/// The drafts of a good kind and of a wrong one.
struct Case {
    good: Vec<u8>,
    wrong: Vec<u8>,
    full: Vec<u8>,
}

impl Case {
    fn certificate(&self, faults: &[Fault]) -> Vec<u8> {
        let is_wrong = faults.contains(&Fault::Kind);
        let mut octets = if is_wrong { &self.wrong } else { &self.good }.clone();
        if faults.contains(&Fault::LeftOver) {
            octets.push(0);
        }
        if faults.contains(&Fault::TooLong) {
            octets.resize(1_025, 0);
        }
        octets
    }

    /// Slot 40 holds the issuer, slot 20 the certificate if it is held; slot 3 is the lowest empty.
    fn store(&self, faults: &[Fault]) -> Vec<u8> {
        let mut store = self.full.clone();
        if !faults.contains(&Fault::Full) {
            set_slot(&mut store, 3, &[0; 212]);
            set_slot(&mut store, 50, &[0; 212]);
        }
        set_slot(&mut store, 40, &issuer(faults).slot());
        if faults.contains(&Fault::Held) {
            let is_wrong = faults.contains(&Fault::Kind);
            let held = id(if is_wrong { &self.wrong } else { &self.good }).unwrap();
            let fields = Fields::new(u64::from_be_bytes(held));
            set_slot(&mut store, 20, &fields.slot());
        }
        if faults.contains(&Fault::BadStore) {
            flip(&mut store, 8 * 212 * 30 - 1);
        }
        if faults.contains(&Fault::StoreLength) {
            store.pop();
        }
        store
    }
}

/// The authority that the drafts name, 100 to 900, permission 36, everywhere, but for the faults.
fn issuer(faults: &[Fault]) -> Fields {
    let mut issuer = Fields::new(u64::from_be_bytes(ISSUER));
    for fault in faults {
        match fault {
            Fault::IssuerUnknown => issuer.id += 1,
            Fault::IssuerWithdrawn => issuer.state = 2,
            Fault::IssuerTicket => issuer.kind = 1,
            Fault::Permission => issuer.permissions[0] = 37,
            Fault::Period => issuer.end = 299,
            Fault::Region => (issuer.rectangle_count, issuer.rectangles[0]) = (1, [1, 0, 0, 1]),
            _ => {}
        }
    }
    issuer
}

/// Tries every set of the faults; gives how many there are.
fn every_set(
    case: &Case,
    order: &[(Fault, u8)],
    operation: fn(&mut [u8], &[u8], u8) -> u8,
) -> usize {
    let mut tried = 0;
    for (faults, answers) in sets(order) {
        let before = case.store(&faults);
        let verdict = if faults.contains(&Fault::Verdict) {
            0
        } else {
            1
        };
        let mut after = before.clone();
        let number = operation(&mut after, &case.certificate(&faults), verdict);
        assert_eq!(number, first(&answers), "{answers:?}");
        if number == 0 {
            // Slot 3 alone is written.
            assert_ne!(after[3 * 212..4 * 212], [0; 212]);
            after[3 * 212..4 * 212].fill(0);
        }
        assert!(after == before, "{answers:?}");
        tried += 1;
    }
    tried
}

#[test]
fn install_faults() {
    let case = Case {
        good: root().octets(),
        wrong: ticket().octets(),
        full: full_store(),
    };
    assert_eq!(every_set(&case, &INSTALL, install), 256);
}

#[test]
fn admit_faults() {
    for good in [ticket(), authority()] {
        let case = Case {
            good: good.octets(),
            wrong: root().octets(),
            full: full_store(),
        };
        assert_eq!(every_set(&case, &ADMIT, admit), 16_384);
    }
}
