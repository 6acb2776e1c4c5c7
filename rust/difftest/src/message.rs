//! Signed messages, made up at random: what one says, in the words of paper 01.
//! No reader has a part in this.
//!
//! - [`layout`] is its layout and its octets, [`broken_layouts`] breaks the
//!   layout.
//! - [`chain`] makes up its signer and the certificates above it, [`differences`]
//!   a stored record that is not quite the signer's, [`times`] and [`places`]
//!   when and where.
//! - [`scene`] makes up a whole request, [`broken_judgements`] has the reasons
//!   to refuse it, [`generate`] chooses among them, [`expect`] is the paper's
//!   answer.

pub mod broken_judgements;
pub mod broken_layouts;
pub mod chain;
pub mod differences;
pub mod expect;
pub mod generate;
pub mod layout;
pub mod places;
pub mod scene;
pub mod times;

use crate::plan::{Plan, Point};
use crate::random::Random;
use crate::standing::Place;

/// The most octets that a message may have.
pub const MOST_OCTETS: usize = 2_048;

/// Who signed: header 128.
#[derive(Clone, Debug)]
pub enum Signer {
    Id([u8; 8]),
    Certificate(Box<Plan>),
}

/// Header 1, which has no effect.
#[derive(Clone, Copy, Debug)]
pub struct Deviation {
    pub time: u64,
    pub octet: u8,
}

/// Header 3.
#[derive(Clone, Copy, Debug)]
pub struct Location {
    pub place: Place,
    pub elevation: [u8; 2],
}

#[derive(Clone, Debug)]
pub struct Message {
    pub signer: Signer,
    pub generation_time: u64,
    pub deviation: Option<Deviation>,
    pub expiration: Option<u32>,
    pub location: Option<Location>,
    pub digests: Option<Vec<[u8; 3]>>,
    pub its_aid: u32,
    pub payload: Vec<u8>,
    pub signature: Point,
    pub signature_s: [u8; 32],
}

impl Message {
    /// A message with what counts for its answer; the other headers, payload
    /// and signature are any.
    pub fn random(signer: Signer, generation_time: u64, its_aid: u32, random: &mut Random) -> Self {
        Message {
            signer,
            generation_time,
            deviation: random.once_in(3).then(|| deviation(random)),
            expiration: None,
            location: None,
            digests: random.once_in(3).then(|| digests(random)),
            its_aid,
            payload: payload(random),
            signature: Point {
                point_type: random.pick(&[0, 2, 3]),
                x: random.array(),
            },
            signature_s: random.array(),
        }
    }

    pub fn is_by_id(&self) -> bool {
        matches!(self.signer, Signer::Id(_))
    }
}

fn deviation(random: &mut Random) -> Deviation {
    let any = random.next();
    Deviation {
        time: random.pick(&[0, any, u64::MAX]),
        octet: random.octet(),
    }
}

/// None, some, or so many that their length takes two octets.
fn digests(random: &mut Random) -> Vec<[u8; 3]> {
    let any = random.below(60);
    let count = random.pick(&[0, 1, 2, 42, 43, any]);
    (0..count).map(|_| random.array()).collect()
}

/// Empty, some octets, or so many that their length takes two octets.
fn payload(random: &mut Random) -> Vec<u8> {
    let any = random.below(300);
    let length = random.pick(&[0, 1, 127, 128, any, any]);
    random.octets(length)
}
