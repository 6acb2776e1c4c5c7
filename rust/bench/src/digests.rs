//! SHA-256 of both sides, on messages.

use std::hint::black_box;

use difftest::random::Random;

use crate::ffi::sha256;
use crate::measure::{Buffer, Contest};
use crate::set::Set;

const OPERATION: &str = "SHA-256";
const LENGTH: usize = 32;

/// How long the messages of a set are, and how many.
const SETS: [(usize, usize); 4] = [(65_536, 10), (1_024, 100), (257, 100), (64, 100)];

const NOT_LINKED: &str = "\
No SHA-256 rows: for them, run `rt lib` in crates/sha256_c and build again.
";

/// The messages, the same ones for a seed; none if there is nothing to time.
pub fn sets(seed: u64) -> Vec<Set> {
    if !sha256::LINKED {
        return Vec::new();
    }
    let mut random = Random::new(seed);
    let set = |(length, count)| Set {
        name: "messages",
        inputs: (0..count).map(|_| message(&mut random, length)).collect(),
        ..Set::default()
    };
    SETS.into_iter().map(set).collect()
}

/// A message; both sides must agree on its digest before they are timed.
fn message(random: &mut Random, length: usize) -> Vec<u8> {
    let message = random.octets(length);
    let mut digest = [0; LENGTH];
    let number = sha256::digest(&message, &mut digest);
    assert_eq!(
        (number, digest),
        (0, reference::sha256(&message)),
        "Library against Reference, {OPERATION} of {length} octets"
    );
    message
}

pub fn contest(set: &Set) -> Contest<'_> {
    Contest::new(OPERATION, set, library, reference)
}

fn library(message: &[u8], buffer: &mut Buffer) {
    black_box(sha256::digest(message, buffer));
    black_box(buffer);
}

fn reference(message: &[u8], _: &mut Buffer) {
    black_box(reference::sha256(message));
}

/// What stands below the table: the speeds, or how to get them.
pub fn remarks(contests: &[Contest]) -> String {
    if !sha256::LINKED {
        return NOT_LINKED.to_string();
    }
    let digests = contests.iter().filter(|c| c.operation == OPERATION);
    digests.map(speeds).collect()
}

fn speeds(contest: &Contest) -> String {
    let octets = contest.set.mean_length();
    let speed = |nanoseconds| 1e3 * octets as f64 / nanoseconds;
    format!(
        "- {OPERATION} of {octets} octets: library {:.0} MB/s, reference {:.0} MB/s\n",
        speed(contest.library),
        speed(contest.reference)
    )
}
