//! Random certificates: valid ones, broken ones, and octets of all sorts.

use crate::broken_layouts;
use crate::broken_octets;
use crate::draft::Draft;
use crate::plan::Plan;
use crate::random::Random;

/// A certificate to ask about.
pub struct Made {
    pub octets: Vec<u8>,
    /// How it was made, for the report of a failure.
    pub how: &'static str,
    /// The answer line to `read`, if it was made from a valid plan unbroken.
    pub answer: Option<String>,
}

pub const VALID: &str = "valid";
const LONG: &str = "a valid one and octets behind it, up to a length";
const TWICE: &str = "two damages";
const OCTETS: &str = "random octets";
const ALIKE: &str = "random octets that look like a certificate";

/// All ways that `made` may go.
pub fn ways() -> Vec<&'static str> {
    let faults = broken_layouts::ALL.iter().map(|(how, _)| *how);
    let damages = broken_octets::ALL.iter().map(|(how, _)| *how);
    [VALID, LONG, TWICE, OCTETS, ALIKE]
        .into_iter()
        .chain(faults)
        .chain(damages)
        .collect()
}

pub fn made(random: &mut Random) -> Made {
    match random.below(100) {
        0..=34 => valid(random),
        35..=59 => faulty(random),
        60..=84 => damaged(random),
        85..=89 => damaged_twice(random),
        90..=91 => long(random),
        92..=95 => Made {
            octets: any_octets(random),
            how: OCTETS,
            answer: None,
        },
        _ => Made {
            octets: alike(random),
            how: ALIKE,
            answer: None,
        },
    }
}

pub fn valid(random: &mut Random) -> Made {
    let plan = Plan::random(random);
    let octets = Draft::of(&plan).encode().octets();
    let answer = Some(plan.answer(octets.len()));
    Made {
        octets,
        how: VALID,
        answer,
    }
}

fn faulty(random: &mut Random) -> Made {
    let (how, fault) = random.pick(&broken_layouts::ALL);
    let plan = Plan::random(random);
    Made {
        octets: fault(&plan, random).octets(),
        how,
        answer: None,
    }
}

fn damaged(random: &mut Random) -> Made {
    let (how, damage) = random.pick(&broken_octets::ALL);
    let encoded = Draft::of(&Plan::random(random)).encode();
    Made {
        octets: broken_octets::apply(damage, encoded.wire, random),
        how,
        answer: None,
    }
}

/// A fault of the layout, and damage to its octets.
fn damaged_twice(random: &mut Random) -> Made {
    let (_, fault) = random.pick(&broken_layouts::ALL);
    let (_, damage) = random.pick(&broken_octets::ALL);
    let encoded = fault(&Plan::random(random), random);
    Made {
        octets: broken_octets::apply(damage, encoded.wire, random),
        how: TWICE,
        answer: None,
    }
}

/// Around the limit of 1,024 octets, and far beyond it.
fn long(random: &mut Random) -> Made {
    let mut octets = valid(random).octets;
    let length = random.pick(&[
        1_022, 1_023, 1_024, 1_024, 1_025, 1_025, 1_026, 2_048, 70_000,
    ]);
    let more = random.octets(length - octets.len());
    octets.extend(more);
    Made {
        octets,
        how: LONG,
        answer: None,
    }
}

/// Of every length from 0 to 1,100.
fn any_octets(random: &mut Random) -> Vec<u8> {
    let length = random.below(1_101);
    random.octets(length)
}

/// Octets that occur in certificates, behind a head that reads.
fn alike(random: &mut Random) -> Vec<u8> {
    const COMMON: [u8; 16] = [0, 0, 0, 1, 1, 2, 2, 3, 4, 5, 9, 32, 33, 36, 0x80, 0xf0];
    let plan = Plan::random(random);
    let mut octets = Draft {
        name: Vec::new(),
        ..Draft::of(&plan)
    }
    .encode()
    .octets();
    octets.truncate(random.below(16));
    let count = random.below(300);
    octets.extend((0..count).map(|_| random.pick(&COMMON)));
    octets
}
