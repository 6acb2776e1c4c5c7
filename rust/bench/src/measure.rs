//! Times of two sides, in turn.

use std::hint::black_box;
use std::time::{Duration, Instant};

use nattveldi::raw::{PAGE_LENGTH, STORE_LENGTH};

use crate::set::Set;

/// What a call may write to, as long as the longest answer; it is not cleared
/// between calls.
pub type Buffer = [u8; PAGE_LENGTH];

/// Reads an input.
pub type Read = fn(&[u8], &mut Buffer);

/// Asks a store about an input.
pub type Ask = fn(&[u8], &[u8], &mut Buffer);

/// Changes a store: store, what stands behind it, verdict.
pub type Change = fn(&mut [u8], &[u8], u8) -> u8;

/// What a side does with each input.
#[derive(Clone, Copy)]
pub enum Work {
    Reads(Read),
    /// The store is the one that all inputs share.
    Asks(Ask),
    /// The input is a store and what is asked behind it, a certificate or an
    /// id; the verdict is good.
    Changes(Change),
}

/// How many inputs are timed at once. In a longer time some other work on the
/// machine would nearly always count as well.
const PIECE: usize = 1_000;

/// One operation of both sides on one set, and the shortest time of each so
/// far, in nanoseconds an input.
pub struct Contest<'a> {
    pub operation: &'static str,
    pub set: &'a Set,
    pub library: f64,
    pub reference: f64,
    works: [Work; 2],
    /// The shortest times of the set's pieces, of each side.
    pieces: [Vec<Duration>; 2],
}

impl<'a> Contest<'a> {
    pub fn new(operation: &'static str, set: &'a Set, library: Read, reference: Read) -> Self {
        let works = [library, reference].map(Work::Reads);
        Contest::of(operation, set, works)
    }

    /// The works are the library's and the reference's.
    pub fn of(operation: &'static str, set: &'a Set, works: [Work; 2]) -> Self {
        let pieces = vec![Duration::MAX; set.inputs.len().div_ceil(PIECE)];
        Contest {
            operation,
            set,
            library: f64::INFINITY,
            reference: f64::INFINITY,
            works,
            pieces: [pieces.clone(), pieces],
        }
    }

    /// Times a side once, and gives the nanoseconds an input from the shortest
    /// times of all pieces.
    fn round(&mut self, side: usize) -> f64 {
        let inputs = self.set.inputs.chunks(PIECE);
        for (shortest, inputs) in self.pieces[side].iter_mut().zip(inputs) {
            let time = time(self.works[side], &self.set.store, inputs);
            *shortest = time.min(*shortest);
        }
        let sum: Duration = self.pieces[side].iter().sum();
        sum.as_nanos() as f64 / self.set.inputs.len() as f64
    }
}

/// Each round times each side of each contest once.
pub fn run(contests: &mut [Contest], rounds: usize) {
    for _ in 0..rounds {
        for contest in contests.iter_mut() {
            contest.library = contest.round(0);
            contest.reference = contest.round(1);
        }
    }
}

/// The time of one pass, after one that is not timed.
fn time(work: Work, store: &[u8], inputs: &[Vec<u8>]) -> Duration {
    let pass = || match work {
        Work::Reads(read) => reading(read, inputs),
        Work::Asks(ask) => asking(ask, store, inputs),
        Work::Changes(change) => changing(change, inputs),
    };
    pass();
    pass()
}

fn reading(read: Read, inputs: &[Vec<u8>]) -> Duration {
    let mut buffer: Buffer = [0; PAGE_LENGTH];
    let start = Instant::now();
    for input in inputs {
        read(input, &mut buffer);
    }
    start.elapsed()
}

fn asking(ask: Ask, store: &[u8], inputs: &[Vec<u8>]) -> Duration {
    let mut buffer: Buffer = [0; PAGE_LENGTH];
    let start = Instant::now();
    for input in inputs {
        ask(store, input, &mut buffer);
    }
    start.elapsed()
}

/// The inputs are copied before the time starts, so that each pass has the
/// stores as they were.
fn changing(change: Change, inputs: &[Vec<u8>]) -> Duration {
    let mut inputs = inputs.to_vec();
    let start = Instant::now();
    for input in &mut inputs {
        let (store, rest) = input.split_at_mut(STORE_LENGTH);
        black_box(change(store, rest, 1));
        black_box(store);
    }
    start.elapsed()
}
