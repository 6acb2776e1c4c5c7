//! A root, an authority below it, and a ticket below that.

use super::writer::{place, placeholder_signature, vector, verification_key};
use crate::proved;
use crate::text::time;

/// The x coordinates of one, two and three times the base point of NIST P-256,
/// so that the keys are points of the curve.
const ONE: &str = "6b17d1f2e12c4247f8bce6e563a440f277037d812deb33a0f4a13945d898c296";
const TWO: &str = "7cf27b188d034f7e8a52380304b51ac3c08969e277f21b35a60b48fc47669978";
const THREE: &str = "5ecbe4d1a6330a44c8f7ef951d4bf165e6c6b721efada985fb41661bc6e7fd6c";

pub fn root() -> Vec<u8> {
    let attributes = [verification_key(3, ONE), vec![32, 2, 36, 37]].concat();
    // start_validity and a duration of 10 years: unit 4, count 10
    let period = [vec![2], second("2026-01-01T00:00:00Z"), vec![0x80, 10]].concat();
    let restrictions = [period, region(68, -26, 62, -12)].concat();
    let head = [vec![2, 0, 4], named("example root")].concat();
    certificate(head, &attributes, &restrictions, 0x11)
}

pub fn authority() -> Vec<u8> {
    let attributes = [verification_key(3, TWO), vec![32, 2, 36, 37]].concat();
    let period = between("2026-01-01T00:00:00Z", "2029-01-01T00:00:00Z");
    let restrictions = [period, region(67, -25, 63, -13)].concat();
    let name = named("example authority");
    let head = [vec![2, 1], id(&root()), vec![2], name].concat();
    certificate(head, &attributes, &restrictions, 0x21)
}

pub fn ticket() -> Vec<u8> {
    // ITS-AID 36 with an SSP of three octets
    let permissions = vec![33, 5, 36, 3, 1, 0x80, 0];
    let assurance = vec![2, 0x83];
    let attributes = [verification_key(2, THREE), assurance, permissions].concat();
    let period = between("2026-06-01T00:00:00Z", "2026-06-08T00:00:00Z");
    let restrictions = [period, region(65, -23, 63, -21)].concat();
    let head = [vec![2, 1], id(&authority()), vec![1], named("")].concat();
    certificate(head, &attributes, &restrictions, 0x31)
}

fn certificate(head: Vec<u8>, attributes: &[u8], restrictions: &[u8], signature: u8) -> Vec<u8> {
    let vectors = [vector(attributes), vector(restrictions)].concat();
    [head, vectors, placeholder_signature(signature)].concat()
}

/// The length of a name is one octet.
fn named(name: &str) -> Vec<u8> {
    [vec![name.len() as u8], name.as_bytes().to_vec()].concat()
}

fn between(start: &str, end: &str) -> Vec<u8> {
    [vec![1], second(start), second(end)].concat()
}

fn region(north: i32, west: i32, south: i32, east: i32) -> Vec<u8> {
    let rectangle = [place(north, west), place(south, east)].concat();
    [vec![3, 2], vector(&rectangle)].concat()
}

fn second(date: &str) -> Vec<u8> {
    let second = time::parse_seconds(date).expect("a date");
    second.to_be_bytes().to_vec()
}

/// The library works it out.
pub fn id(certificate: &[u8]) -> Vec<u8> {
    let id = proved::id(certificate).expect("an example reads");
    id.to_vec()
}
