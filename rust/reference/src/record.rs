//! What a store keeps of a certificate (document 01, "The store").

use crate::certificate::{Certificate, Rectangle};
use crate::constants::{MAXIMUM_NAME, MAXIMUM_PERMISSIONS, MAXIMUM_RECTANGLES, STATE_HELD};
use crate::octets::Part;

/// The fields of a slot, in its order. Unused room of the arrays is zero.
#[derive(Clone, Copy, Debug, PartialEq, Eq, Default)]
pub struct Record {
    pub id: [u8; 8],
    /// "Zero for a root."
    pub issuer: [u8; 8],
    /// "State 0 empty, 1 held, 2 withdrawn."
    pub state: u8,
    /// 1 ticket, 2 authority, 4 root.
    pub kind: u8,
    pub start: u32,
    pub end: u64,
    pub name_length: usize,
    /// First octet first.
    pub name: [u8; MAXIMUM_NAME],
    /// "Point type less 2."
    pub parity: u8,
    pub key: [u8; 32],
    /// 0 means everywhere.
    pub rectangle_count: usize,
    pub rectangles: [Rectangle; MAXIMUM_RECTANGLES],
    pub permission_count: usize,
    /// In the certificate's order, with its repeats.
    pub permissions: [u32; MAXIMUM_PERMISSIONS],
}

impl Record {
    pub fn name(&self) -> &[u8] {
        self.name.get(..self.name_length).unwrap_or(&self.name)
    }

    pub fn rectangles(&self) -> &[Rectangle] {
        let used = self.rectangles.get(..self.rectangle_count);
        used.unwrap_or(&self.rectangles)
    }

    pub fn permissions(&self) -> &[u32] {
        let used = self.permissions.get(..self.permission_count);
        used.unwrap_or(&self.permissions)
    }

    /// The held record of a certificate that was read from `octets`.
    pub(crate) fn held(octets: &[u8], certificate: &Certificate, id: [u8; 8]) -> Record {
        Record {
            id,
            issuer: padded(octets, certificate.issuer),
            state: STATE_HELD,
            kind: certificate.kind,
            start: certificate.start,
            end: certificate.end,
            name_length: certificate.name.length,
            name: padded(octets, certificate.name),
            parity: certificate.key_type - 2,
            key: padded(octets, certificate.key),
            rectangle_count: certificate.rectangle_count,
            rectangles: certificate.rectangles,
            permission_count: certificate.permission_count,
            permissions: certificate.permissions.map(|permission| permission.its_aid),
        }
    }
}

/// A part of at most `N` octets, "unused room is zero".
fn padded<const N: usize>(octets: &[u8], part: Part) -> [u8; N] {
    let mut field = [0; N];
    field[..part.length].copy_from_slice(&octets[part.start..part.end()]);
    field
}
