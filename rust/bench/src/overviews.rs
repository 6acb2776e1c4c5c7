//! What both sides do when they look into a store. An input is a store and what
//! is asked behind it: a slot, or a second.

use std::hint::black_box;

use difftest::random::Random;
use nattveldi::raw::{self, STORE_LENGTH};

use crate::measure::{Buffer, Read, Work};
use crate::overview_set;
use crate::stores::Row;

/// Every operation with its inputs, the same ones for a seed.
pub fn rows(seed: u64) -> Vec<Row> {
    let mut random = Random::for_case(seed, 3);
    let stored = [library_stored, reference_stored].map(|read: Read| Work::Reads(read));
    let standing = [library_standing, reference_standing].map(|read: Read| Work::Reads(read));
    let mut rows = Vec::new();
    for set in overview_set::slots(&mut random) {
        rows.push(Row::new("stored", set, stored));
    }
    for set in overview_set::seconds(&mut random) {
        rows.push(Row::new("standing", set, standing));
    }
    rows
}

fn slot(input: &[u8]) -> (&[u8], usize) {
    let (store, slot) = input.split_at(STORE_LENGTH);
    (store, slot[0].into())
}

fn second(input: &[u8]) -> (&[u8], u32) {
    let (store, second) = input.split_at(STORE_LENGTH);
    let second = second.try_into().expect("4 octets behind the store");
    (store, u32::from_be_bytes(second))
}

fn library_stored(input: &[u8], buffer: &mut Buffer) {
    let (store, slot) = slot(input);
    black_box(raw::stored(store, slot, buffer));
    black_box(buffer);
}

/// The reference's record is one of its own, not in the buffer.
fn reference_stored(input: &[u8], _: &mut Buffer) {
    let (store, slot) = slot(input);
    let _ = black_box(reference::stored(store, slot));
}

fn library_standing(input: &[u8], buffer: &mut Buffer) {
    let (store, second) = second(input);
    black_box(raw::standing(store, second, buffer));
    black_box(buffer);
}

fn reference_standing(input: &[u8], buffer: &mut Buffer) {
    let (store, second) = second(input);
    let _ = black_box(reference::standing(store, second, buffer));
    black_box(buffer);
}
