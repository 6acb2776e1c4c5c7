//! What both sides do on the withdrawal page. An input is that of the program
//! `page`: a store, an id and a second.

use std::hint::black_box;

use difftest::random::Random;
use nattveldi::raw::{self, ID_LENGTH, STORE_LENGTH};

use crate::chain_set;
use crate::measure::{Buffer, Change, Read, Work};
use crate::stores::Row;

/// Every operation with its inputs, the same ones for a seed.
pub fn rows(seed: u64) -> Vec<Row> {
    let list = [library_list, reference_list].map(|read: Read| Work::Reads(read));
    let withdraw =
        [library_withdraw, reference_withdraw].map(|change: Change| Work::Changes(change));
    let page = [library_page, reference_page].map(|read: Read| Work::Reads(read));
    let mut rows = Vec::new();
    for (operation, works) in [("list", list), ("withdraw", withdraw), ("page", page)] {
        let sets = chain_set::questions(&mut Random::for_case(seed, 2));
        let row = |set| Row::new(operation, set, works);
        rows.extend(sets.into_iter().map(row));
    }
    rows
}

fn question(input: &[u8]) -> (&[u8], &[u8], u32) {
    let (store, rest) = input.split_at(STORE_LENGTH);
    let (id, second) = rest.split_at(ID_LENGTH);
    let second = second.try_into().expect("4 octets behind the id");
    (store, id, u32::from_be_bytes(second))
}

fn library_list(input: &[u8], buffer: &mut Buffer) {
    let (store, id, second) = question(input);
    black_box(raw::list(store, id, second, buffer));
    black_box(buffer);
}

fn reference_list(input: &[u8], buffer: &mut Buffer) {
    let (store, id, second) = question(input);
    let _ = black_box(reference::list(store, id, second, buffer));
    black_box(buffer);
}

/// The verdict is nothing to a withdrawal.
fn library_withdraw(store: &mut [u8], rest: &[u8], _: u8) -> u8 {
    raw::withdraw(store, &rest[..ID_LENGTH])
}

fn reference_withdraw(store: &mut [u8], rest: &[u8], _: u8) -> u8 {
    let answer = reference::withdraw(store, &rest[..ID_LENGTH]);
    answer.err().unwrap_or(raw::ACCEPTED)
}

fn library_page(input: &[u8], buffer: &mut Buffer) {
    black_box(raw::page(input, buffer));
    black_box(buffer);
}

/// The reference's text is one of its own, not in the buffer.
fn reference_page(input: &[u8], _: &mut Buffer) {
    black_box(reference::page(input));
}
