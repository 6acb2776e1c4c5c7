//! What both sides do with certificates.

use std::hint::black_box;

use nattveldi::raw;

use crate::measure::{Buffer, Contest};
use crate::set::Set;

/// Every operation on a set.
pub fn contests(set: &Set) -> Vec<Contest<'_>> {
    vec![
        Contest::new("read", set, library_read, reference_read),
        Contest::new("read, bindings", set, bindings_read, reference_read),
        Contest::new("id", set, library_id, reference_id),
        Contest::new("read and id", set, library_both, reference_both),
    ]
}

fn library_read(certificate: &[u8], buffer: &mut Buffer) {
    black_box(raw::read(certificate, buffer));
    black_box(buffer);
}

fn bindings_read(certificate: &[u8], _: &mut Buffer) {
    let _ = black_box(nattveldi::read(certificate));
}

fn reference_read(certificate: &[u8], _: &mut Buffer) {
    let _ = black_box(reference::read(certificate));
}

fn library_id(certificate: &[u8], buffer: &mut Buffer) {
    black_box(raw::id(certificate, buffer));
    black_box(buffer);
}

fn reference_id(certificate: &[u8], _: &mut Buffer) {
    let _ = black_box(reference::id(certificate));
}

fn library_both(certificate: &[u8], buffer: &mut Buffer) {
    library_read(certificate, buffer);
    library_id(certificate, buffer);
}

fn reference_both(certificate: &[u8], buffer: &mut Buffer) {
    reference_read(certificate, buffer);
    reference_id(certificate, buffer);
}
