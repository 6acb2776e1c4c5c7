//! Every proper prefix and every change of one octet, of accepted certificates.

use std::collections::BTreeSet;

use difftest::draft::Draft;
use difftest::plan::{Plan, AUTHORITY, ROOT, TICKET};
use difftest::random::Random;
use difftest::{compare, hex};

const CUT: u8 = 4;

/// A ticket, an authority and a root with something of everything in them, and
/// a root with as little as can be.
fn accepted() -> Vec<Vec<u8>> {
    let mut certificates: Vec<Vec<u8>> = [TICKET, AUTHORITY, ROOT].map(full).to_vec();
    let mut least = full_plan(ROOT);
    least.name.clear();
    least.encryption_key = None;
    least.assurance = None;
    least.permissions.clear();
    least.region = None;
    certificates.push(encoded(&least));
    for certificate in &certificates {
        assert_eq!(
            compare::certificate(certificate),
            Ok(0),
            "{}",
            hex::text(certificate)
        );
    }
    certificates
}

fn full(kind: u8) -> Vec<u8> {
    encoded(&full_plan(kind))
}

/// The first plan of its kind that has every optional element.
fn full_plan(kind: u8) -> Plan {
    (0..)
        .map(|case| Plan::of_kind(kind, &mut Random::for_case(2, case)))
        .find(|plan| {
            let rectangles = plan.region.as_ref().map_or(0, Vec::len);
            let optional = plan.encryption_key.is_some() && plan.assurance.is_some();
            optional
                && rectangles >= 2
                && !plan.name.is_empty()
                && (3..9).contains(&plan.permissions.len())
        })
        .expect("one of endlessly many")
}

fn encoded(plan: &Plan) -> Vec<u8> {
    Draft::of(plan).encode().octets()
}

fn agreed(octets: &[u8], what: &str) -> u8 {
    compare::certificate(octets)
        .unwrap_or_else(|said| panic!("{said}\n{what}: {}", hex::text(octets)))
}

/// A proper prefix breaks off a field or a vector, and no fault stands before
/// the break: the papers answer 4.
#[test]
fn proper_prefixes() {
    for certificate in accepted() {
        for length in 0..certificate.len() {
            let number = agreed(&certificate[..length], "a prefix");
            assert_eq!(
                number,
                CUT,
                "a prefix of {length} octets of {}",
                hex::text(&certificate)
            );
        }
    }
}

#[test]
fn changes_of_one_octet() {
    for certificate in accepted() {
        let mut numbers = BTreeSet::new();
        for at in 0..certificate.len() {
            let mut changed = certificate.clone();
            for by in 1..=255 {
                changed[at] = certificate[at] ^ by;
                numbers.insert(agreed(&changed, "a changed octet"));
            }
        }
        assert_eq!(
            numbers,
            BTreeSet::from([0, 4, 5, 6]),
            "{}",
            hex::text(&certificate)
        );
    }
}
