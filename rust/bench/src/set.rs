//! Inputs that are timed, and the certificates among them.

use difftest::compare;
use difftest::generate;
use difftest::hex;
use difftest::random::Random;

/// Inputs of one sort.
#[derive(Default)]
pub struct Set {
    pub name: &'static str,
    pub inputs: Vec<Vec<u8>>,
    /// The store that all inputs are asked of; empty if they are asked of none,
    /// or each of its own.
    pub store: Vec<u8>,
}

impl Set {
    pub fn mean_length(&self) -> usize {
        let octets: usize = self.inputs.iter().map(Vec::len).sum();
        octets / self.inputs.len()
    }
}

const MANY: usize = 1_000;
const SOME: usize = 100;
/// What counts as short and as long; most lie between.
const SHORT: usize = 200;
const LONG: usize = 600;

/// The longest certificate that is looked at.
const MOST_OCTETS: usize = 1_024;

/// The certificates, the same ones for a seed.
pub fn certificates(seed: u64) -> Vec<Set> {
    let accepted = |name, count, least, most| Set {
        name,
        inputs: take(seed, count, |number, length| {
            number == 0 && (least..=most).contains(&length)
        }),
        ..Set::default()
    };
    let refused = Set {
        name: "refused, varied",
        inputs: take(seed, MANY, |number, length| {
            number != 0 && length <= MOST_OCTETS
        }),
        ..Set::default()
    };
    vec![
        accepted("accepted, varied", MANY, 0, MOST_OCTETS),
        accepted("accepted, short", SOME, 0, SHORT),
        accepted("accepted, long", SOME, LONG, MOST_OCTETS),
        refused,
    ]
}

/// The first certificates whose number and length are wanted.
fn take(seed: u64, count: usize, wanted: impl Fn(u8, usize) -> bool) -> Vec<Vec<u8>> {
    (0..)
        .map(|case| generate::made(&mut Random::for_case(seed, case)).octets)
        .filter(|octets| wanted(number(octets), octets.len()))
        .take(count)
        .collect()
}

/// The answer of both sides, which must agree on fields and id before they are timed.
fn number(octets: &[u8]) -> u8 {
    compare::certificate(octets).unwrap_or_else(|said| panic!("{said}: {}", hex::text(octets)))
}
