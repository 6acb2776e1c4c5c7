//! What both sides do with stores.

use std::hint::black_box;

use difftest::changes::Operation;
use difftest::random::Random;
use difftest::slot::{Slot, SLOT_LENGTH};
use nattveldi::raw;

use crate::ffi::store;
use crate::measure::{Buffer, Change, Contest, Read, Work};
use crate::set::Set;
use crate::store_set;

const NOT_LINKED: &str = "\
No rows for validity and for records: for them, run `rt lib` in crates/store_c
and build again.
";

/// An operation on a set, by both sides.
pub struct Row {
    operation: &'static str,
    set: Set,
    works: [Work; 2],
}

impl Row {
    /// The works are the library's and the reference's.
    pub fn new(operation: &'static str, set: Set, works: [Work; 2]) -> Row {
        Row {
            operation,
            set,
            works,
        }
    }

    pub fn contest(&self) -> Contest<'_> {
        Contest::of(self.operation, &self.set, self.works)
    }
}

/// Every operation with its inputs, the same ones for a seed.
pub fn rows(seed: u64) -> Vec<Row> {
    let mut rows = Vec::new();
    if store::LINKED {
        let mut random = Random::for_case(seed, 0);
        let validity = store_set::stores(&mut random).into_iter().map(validity);
        rows.extend(validity);
        rows.extend(store_set::slots(&mut random).into_iter().map(rewriting));
    }
    let mut random = Random::for_case(seed, 1);
    let admit = [raw::admit, reference::admit].map(|call: Change| Work::Changes(call));
    let install = [raw::install, reference::install].map(|call: Change| Work::Changes(call));
    for (name, operation, number, works) in [
        ("admit, accepted", Operation::Admit, 0, admit),
        ("admit, refused 17", Operation::Admit, 17, admit),
        ("install, accepted", Operation::Install, 0, install),
        ("install, refused 17", Operation::Install, 17, install),
    ] {
        rows.push(Row {
            operation: name,
            set: store_set::requests(operation, number, &mut random),
            works,
        });
    }
    rows
}

/// Both sides must find each store valid before they are timed.
fn validity(set: Set) -> Row {
    for input in &set.inputs {
        let answers = (store::valid(input), reference::store_is_valid(input));
        assert_eq!(answers, (0, true), "Library against Reference, validity");
    }
    Row {
        operation: "validity",
        set,
        works: [library_validity, reference_validity].map(|read: Read| Work::Reads(read)),
    }
}

/// Both sides must give each slot's octets again before they are timed.
fn rewriting(set: Set) -> Row {
    for input in &set.inputs {
        let mut image = [0; SLOT_LENGTH];
        let number = store::rewrite(input, &mut image);
        assert_eq!((number, &image[..]), (0, &input[..]), "Library, a record");
        let again = reference::encode(&reference::decode(slot(input)));
        assert_eq!(again[..], input[..], "Reference, a record");
    }
    Row {
        operation: "decode and encode",
        set,
        works: [library_rewriting, reference_rewriting].map(|read: Read| Work::Reads(read)),
    }
}

fn slot(input: &[u8]) -> &Slot {
    input.try_into().expect("an input of a slot's length")
}

fn library_validity(input: &[u8], _: &mut Buffer) {
    black_box(store::valid(input));
}

fn reference_validity(input: &[u8], _: &mut Buffer) {
    black_box(reference::store_is_valid(input));
}

fn library_rewriting(input: &[u8], buffer: &mut Buffer) {
    black_box(store::rewrite(input, &mut buffer[..SLOT_LENGTH]));
    black_box(buffer);
}

fn reference_rewriting(input: &[u8], buffer: &mut Buffer) {
    let record = reference::decode(slot(input));
    buffer[..SLOT_LENGTH].copy_from_slice(&reference::encode(&record));
    black_box(buffer);
}

/// What stands below the table: how to get the rows that are missing.
pub fn remarks() -> &'static str {
    if store::LINKED {
        ""
    } else {
        NOT_LINKED
    }
}
