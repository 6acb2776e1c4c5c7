//! A message's layout as a tree of fields, which need not keep the rules, and
//! its octets.

use std::ops::Range;

use super::{Location, Message, Signer};
use crate::draft::{self, Draft, Element, Item};
use crate::plan::{Point, SIGNATURE_LENGTH};
use crate::wire::Wire;

pub const SIGNER: u8 = 128;

#[derive(Clone, Debug)]
pub struct Layout {
    pub version: Item,
    pub headers: Vec<Element>,
    pub payload_type: Item,
    pub payload: Vec<u8>,
    /// What the trailer vector holds.
    pub trailer: Vec<Item>,
    /// By how much the lengths of the three vectors are longer than they need
    /// be.
    pub longer: [usize; 3],
}

/// A layout's octets, and where its first two vectors lie.
#[derive(Clone, Debug)]
pub struct Written {
    pub wire: Wire,
    pub headers: Range<usize>,
    pub payload: Range<usize>,
}

/// Where the parts lie that an answer may name, in a message that reads.
#[derive(Clone, Debug, PartialEq, Eq)]
pub struct Places {
    /// Empty, at octet 0, where the signer is named by id.
    pub certificate: Range<usize>,
    pub payload: Range<usize>,
    pub signature: Range<usize>,
}

impl Layout {
    pub fn of(message: &Message) -> Layout {
        let Message {
            signature,
            signature_s,
            ..
        } = message;
        Layout {
            version: Item::Type(2),
            headers: headers(message),
            payload_type: Item::Type(1),
            payload: message.payload.clone(),
            trailer: trailer(signature, signature_s),
            longer: [0; 3],
        }
    }

    pub fn write(&self) -> Written {
        let mut wire = Wire::default();
        let [headers, payload, trailer] = self.longer;
        let fields = Item::Vector(self.headers.concat(), headers);
        draft::write_all(&mut wire, &[self.version.clone(), fields]);
        let headers = end_of(&wire, self.headers_length());
        let octets = Item::Run(self.payload.clone());
        let vector = Item::Vector(vec![octets], payload);
        draft::write_all(&mut wire, &[self.payload_type.clone(), vector]);
        let payload = end_of(&wire, self.payload.len());
        draft::write_all(&mut wire, &[Item::Vector(self.trailer.clone(), trailer)]);
        Written {
            wire,
            headers,
            payload,
        }
    }

    fn headers_length(&self) -> usize {
        let mut inside = Wire::default();
        draft::write_all(&mut inside, &self.headers.concat());
        inside.octets.len()
    }
}

/// The last octets that were written.
fn end_of(wire: &Wire, length: usize) -> Range<usize> {
    let end = wire.octets.len();
    end - length..end
}

impl Written {
    /// The places of the parts, if this was written from a message as it is.
    pub fn places(&self, message: &Message) -> Places {
        let certificate = match &message.signer {
            Signer::Id(_) => 0..0,
            Signer::Certificate(plan) => {
                // Behind the header's type and the signer's.
                let start = self.headers.start + 2;
                start..start + Draft::of(plan).encode().octets().len()
            }
        };
        Places {
            certificate,
            payload: self.payload.clone(),
            signature: end_of(&self.wire, SIGNATURE_LENGTH),
        }
    }
}

/// The headers in their order.
fn headers(message: &Message) -> Vec<Element> {
    let time = |time: u64| Item::Run(time.to_be_bytes().to_vec());
    let mut headers = vec![signer(&message.signer)];
    headers.push(vec![Item::Type(0), time(message.generation_time)]);
    headers.extend(message.deviation.map(|deviation| {
        let octet = Item::Run(vec![deviation.octet]);
        vec![Item::Type(1), time(deviation.time), octet]
    }));
    let expiration = |second| vec![Item::Type(2), Item::Time(second)];
    headers.extend(message.expiration.map(expiration));
    headers.extend(message.location.map(location));
    headers.extend(message.digests.as_ref().map(|digests| {
        let octets = Item::Run(digests.concat());
        vec![Item::Type(4), Item::Vector(vec![octets], 0)]
    }));
    headers.push(vec![Item::Type(5), Item::IntX(message.its_aid, 0)]);
    headers
}

fn signer(signer: &Signer) -> Element {
    match signer {
        Signer::Id(id) => vec![Item::Type(SIGNER), Item::Type(1), Item::Run(id.to_vec())],
        Signer::Certificate(plan) => certificate(Draft::of(plan).encode().wire),
    }
}

/// The signer's header with a certificate that is written already.
pub fn certificate(certificate: Wire) -> Element {
    vec![
        Item::Type(SIGNER),
        Item::Type(2),
        Item::Written(certificate),
    ]
}

fn location(location: Location) -> Element {
    let (latitude, longitude) = location.place;
    vec![
        Item::Type(3),
        Item::Latitude(latitude),
        Item::Longitude(longitude),
        Item::Run(location.elevation.to_vec()),
    ]
}

fn trailer(point: &Point, s: &[u8; 32]) -> Vec<Item> {
    vec![
        Item::Type(1),
        Item::Type(0),
        Item::Type(point.point_type),
        Item::Run(point.x.to_vec()),
        Item::Run(s.to_vec()),
    ]
}

#[cfg(test)]
mod tests {
    use super::*;
    use crate::message::Deviation;

    /// By id, with every header.
    fn message() -> Message {
        Message {
            signer: Signer::Id([3; 8]),
            generation_time: 0x0102,
            deviation: Some(Deviation {
                time: 0x0304,
                octet: 9,
            }),
            expiration: Some(0x0506),
            location: Some(Location {
                place: (-1, 2),
                elevation: [7, 8],
            }),
            digests: Some(vec![[1, 2, 3]]),
            its_aid: 128,
            payload: b"pay".to_vec(),
            signature: Point {
                point_type: 2,
                x: [4; 32],
            },
            signature_s: [5; 32],
        }
    }

    #[test]
    fn written_by_hand() {
        let mut octets = vec![2, 53, 128, 1, 3, 3, 3, 3, 3, 3, 3, 3];
        octets.extend([0, 0, 0, 0, 0, 0, 0, 1, 2]);
        octets.extend([1, 0, 0, 0, 0, 0, 0, 3, 4, 9]);
        octets.extend([2, 0, 0, 5, 6]);
        octets.extend([3, 255, 255, 255, 255, 0, 0, 0, 2, 7, 8]);
        octets.extend([4, 3, 1, 2, 3, 5, 0x80, 0x80]);
        octets.extend([1, 3, b'p', b'a', b'y', 67, 1, 0, 2]);
        octets.extend([4; 32]);
        octets.extend([5; 32]);
        let written = Layout::of(&message()).write();
        assert_eq!(written.wire.octets, octets);
        let places = Places {
            certificate: 0..0,
            payload: 57..60,
            signature: 62..128,
        };
        assert_eq!(written.places(&message()), places);
    }
}
