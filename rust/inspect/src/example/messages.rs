//! A message by id, and one with a certificate.

use super::certificates::{id, ticket};
use super::writer::{place, placeholder_signature, vector};
use crate::text::time;

/// It names the example ticket and has no location: the own position counts.
pub fn by_id() -> Vec<u8> {
    let signer = [vec![128, 1], id(&ticket())].concat();
    let time = [vec![0], microsecond("2026-06-02T12:00:00.5Z")].concat();
    let headers = [signer, time, vec![5, 36]].concat();
    message(&headers, b"road is clear", 0x41)
}

/// It carries the example ticket, has a location, and expires.
pub fn with_certificate() -> Vec<u8> {
    let signer = [vec![128, 2], ticket()].concat();
    let time = [vec![0], microsecond("2026-06-02T12:00:01Z")].concat();
    let expires = time::parse_seconds("2026-06-02T12:00:11Z").expect("a date");
    let expiration = [vec![2], expires.to_be_bytes().to_vec()].concat();
    let location = [vec![3], place(64, -22), vec![0, 100]].concat();
    let headers = [signer, time, expiration, location, vec![5, 36]].concat();
    message(&headers, b"road works ahead", 0x51)
}

fn message(headers: &[u8], payload: &[u8], signature: u8) -> Vec<u8> {
    let trailer = [vec![1], placeholder_signature(signature)].concat();
    let front = [vec![2], vector(headers), vec![1], vector(payload)].concat();
    [front, vector(&trailer)].concat()
}

fn microsecond(date: &str) -> Vec<u8> {
    let time = time::parse_microseconds(date).expect("a date");
    time.to_be_bytes().to_vec()
}
