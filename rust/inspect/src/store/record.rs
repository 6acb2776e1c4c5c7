//! What a slot holds, and what it would hold of a certificate.

use nattveldi::{Certificate, Id, Rectangle, State, Stored};

use super::bits;
use super::layout::*;
use crate::text::{hex, kind, name};

pub const HELD: u8 = State::Held as u8;
pub const WITHDRAWN: u8 = State::Withdrawn as u8;

/// The fields of a slot. Length and counts are what it says, and a bad store may
/// say more than it has room for; name, rectangles and permissions fit the room.
#[derive(Clone, Debug, PartialEq, Eq)]
pub struct Record {
    pub id: [u8; 8],
    pub issuer: [u8; 8],
    pub state: u8,
    pub kind: u8,
    pub start: u64,
    pub end: u64,
    pub name_length: usize,
    pub name: Vec<u8>,
    /// The point type of the key, 2 or 3.
    pub key_type: u8,
    pub key: Vec<u8>,
    pub rectangle_count: usize,
    pub rectangles: Vec<Rectangle>,
    pub permission_count: usize,
    pub permissions: Vec<u32>,
}

impl Record {
    /// What the library tells of a slot.
    pub fn from_stored(stored: Stored) -> Record {
        Record {
            id: stored.id.into(),
            issuer: stored.issuer.map(Id::into).unwrap_or_default(),
            state: stored.state as u8,
            kind: stored.kind as u8,
            start: stored.start.into(),
            end: stored.end,
            name_length: stored.name.len(),
            name: stored.name,
            key_type: stored.point_type as u8,
            key: stored.key.to_vec(),
            rectangle_count: stored.region.rectangles().len(),
            rectangles: stored.region.rectangles().to_vec(),
            permission_count: stored.permissions.len(),
            permissions: stored.permissions,
        }
    }

    /// This tool's own reading of a slot.
    pub fn from_slot(slot: &[u8]) -> Record {
        let number = |place: Place| bits::number(slot, place.bit, place.width);
        let count = |place: Place| number(place) as usize;
        let (name_length, rectangle_count) = (count(NAME_LENGTH), count(RECTANGLE_COUNT));
        let permission_count = count(PERMISSION_COUNT);
        let permission = |i| bits::number(slot, PERMISSIONS.of(i), PERMISSIONS.width) as u32;
        Record {
            id: number(ID).to_be_bytes(),
            issuer: number(ISSUER).to_be_bytes(),
            state: number(STATE) as u8,
            kind: number(KIND) as u8,
            start: number(START),
            end: number(END),
            name_length,
            name: bits::octets(slot, NAME.bit, name_length.min(NAME.count)),
            key_type: number(KEY_PARITY) as u8 + 2,
            key: bits::octets(slot, KEY.bit, KEY.count),
            rectangle_count,
            rectangles: (0..rectangle_count.min(RECTANGLES.count))
                .map(|i| rectangle(slot, i))
                .collect(),
            permission_count,
            permissions: (0..permission_count.min(PERMISSIONS.count))
                .map(permission)
                .collect(),
        }
    }

    /// The record of a certificate, from what the library read of it.
    pub fn from_certificate(octets: &[u8], id: [u8; 8], fields: &Certificate) -> Record {
        let mut issuer = [0; 8];
        if let Some(part) = fields.issuer {
            issuer.copy_from_slice(part.of(octets));
        }
        Record {
            id,
            issuer,
            state: HELD,
            kind: fields.kind as u8,
            start: fields.period.start.into(),
            end: fields.period.end,
            name_length: fields.name.length,
            name: fields.name.of(octets).to_vec(),
            key_type: fields.key.point_type as u8,
            key: fields.key.x.of(octets).to_vec(),
            rectangle_count: fields.region.rectangles().len(),
            rectangles: fields.region.rectangles().to_vec(),
            permission_count: fields.permissions().len(),
            permissions: fields.permissions().iter().map(|p| p.its_aid).collect(),
        }
    }

    /// The first field, the state aside, in which two records differ.
    pub fn difference(&self, other: &Record) -> Option<&'static str> {
        let tests = [
            (self.id == other.id, "id"),
            (self.issuer == other.issuer, "issuer"),
            (self.kind == other.kind, "kind"),
            (self.start == other.start, "start"),
            (self.end == other.end, "end"),
            (self.name == other.name, "name"),
            (self.key_type == other.key_type, "key parity"),
            (self.key == other.key, "key"),
            (self.rectangles == other.rectangles, "rectangles"),
            (self.permissions == other.permissions, "permissions"),
        ];
        tests
            .iter()
            .find(|(same, _)| !same)
            .map(|(_, field)| *field)
    }

    /// Kind, id and name.
    pub fn title(&self) -> String {
        let (word, id) = (kind::word(self.kind), hex::text(&self.id));
        format!("{word} {id} {}", name::short(&self.name))
    }
}

pub fn rectangle(slot: &[u8], index: usize) -> Rectangle {
    let edge = |i: usize| bits::number(slot, RECTANGLES.of(index) + 32 * i, 32) as u32 as i32;
    Rectangle {
        north: edge(0),
        west: edge(1),
        south: edge(2),
        east: edge(3),
    }
}
