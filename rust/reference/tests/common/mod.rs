//! Certificates built by hand, field by field, from 001 clause 6.

#![allow(dead_code)] // each test file uses its own share

pub mod chains;
pub mod messages;
pub mod sets;
pub mod stores;

use reference::{read, Certificate};

pub const ISSUER: [u8; 8] = [2; 8];

/// The pieces of a certificate; vectors without their lengths.
#[derive(Clone)]
pub struct Draft {
    /// Version, signer, kind and name with its length.
    pub head: Vec<u8>,
    pub attributes: Vec<u8>,
    pub restrictions: Vec<u8>,
    pub signature: Vec<u8>,
}

impl Draft {
    pub fn octets(&self) -> Vec<u8> {
        [
            self.head.clone(),
            vector(&self.attributes),
            vector(&self.restrictions),
            self.signature.clone(),
        ]
        .concat()
    }

    pub fn read(&self) -> Result<Certificate, u8> {
        read(&self.octets())
    }

    /// The refusal's number, 0 for none.
    pub fn number(&self) -> u8 {
        number(&self.octets())
    }
}

pub fn number(octets: &[u8]) -> u8 {
    read(octets).err().unwrap_or(0)
}

/// IntX in its shortest form.
pub fn int_x(value: usize) -> Vec<u8> {
    let octets = (value as u32).to_be_bytes();
    match value {
        0..=0x7f => octets[3..].to_vec(),
        0x80..=0x3fff => vec![octets[2] | 0x80, octets[3]],
        0x4000..=0x1f_ffff => vec![octets[1] | 0xc0, octets[2], octets[3]],
        _ => vec![octets[0] | 0xe0, octets[1], octets[2], octets[3]],
    }
}

pub fn vector(contents: &[u8]) -> Vec<u8> {
    [int_x(contents.len()), contents.to_vec()].concat()
}

pub fn verification_key() -> Vec<u8> {
    [vec![0, 0, 2], vec![0x11; 32]].concat()
}

pub fn encryption_key() -> Vec<u8> {
    [vec![1, 1, 0, 3], vec![0x22; 32]].concat()
}

/// Attribute 32.
pub fn its_aid_list(contents: &[u8]) -> Vec<u8> {
    [vec![32], vector(contents)].concat()
}

/// Attribute 33.
pub fn its_aid_ssp_list(contents: &[u8]) -> Vec<u8> {
    [vec![33], vector(contents)].concat()
}

/// Restriction 1: 200 to 300.
pub fn period() -> Vec<u8> {
    vec![1, 0, 0, 0, 200, 0, 0, 1, 44]
}

/// Restriction 3 with the octets of a rectangle vector.
pub fn rectangles(contents: &[u8]) -> Vec<u8> {
    [vec![3, 2], vector(contents)].concat()
}

pub fn rectangle(north: i32, west: i32, south: i32, east: i32) -> Vec<u8> {
    [north, west, south, east]
        .iter()
        .flat_map(|edge| edge.to_be_bytes())
        .collect()
}

pub fn signature(point_type: u8) -> Vec<u8> {
    [vec![0, point_type], vec![0x77; 64]].concat()
}

fn draft(head: Vec<u8>, permissions: Vec<u8>) -> Draft {
    Draft {
        head,
        attributes: [verification_key(), permissions].concat(),
        restrictions: period(),
        signature: signature(0),
    }
}

/// A ticket with permission 36, its SSP 55 55, and the period 200 to 300.
pub fn ticket() -> Draft {
    let head = [vec![2, 1], ISSUER.to_vec(), vec![1, 0]].concat();
    draft(head, its_aid_ssp_list(&[36, 2, 0x55, 0x55]))
}

/// An authority with the name B1 and permission 36.
pub fn authority() -> Draft {
    let head = [vec![2, 1], ISSUER.to_vec(), vec![2, 2, 0x42, 0x31]].concat();
    draft(head, its_aid_list(&[36]))
}

/// A root with permission 36.
pub fn root() -> Draft {
    draft(vec![2, 0, 4, 0], its_aid_list(&[36]))
}
