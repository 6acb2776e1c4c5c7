//! Octets as hex text with comments, which the program reads again.

use nattveldi::VERSION;

use crate::reading::{self, Field};
use crate::store::layout::{SLOTS, SLOT_LENGTH};
use crate::store::Slots;
use crate::text::hex;

pub const PLACEHOLDERS: &str =
    "signatures are placeholders: nobody computed them; the chip's verdict is an input";
const DIGITS_WIDTH: usize = 22;
const OCTETS_A_LINE: usize = 32;

pub fn certificate(title: &str, octets: &[u8]) -> String {
    fields(title, octets, &reading::certificate(octets).fields)
}

pub fn message(title: &str, octets: &[u8]) -> String {
    fields(title, octets, &reading::message(octets).fields)
}

/// A field a line. What has such fields holds a signature.
fn fields(title: &str, octets: &[u8], fields: &[Field]) -> String {
    let mut text = head(title, octets.len());
    text.push_str(&format!("# {PLACEHOLDERS}\n"));
    for field in fields {
        let digits = hex::text(&octets[field.offset..][..field.length]);
        let code = format!("{:indent$}{digits}", "", indent = 2 * field.depth);
        let says = field.value.words.strip_prefix(&digits);
        let says = says.unwrap_or(&field.value.words);
        let says = says.trim_start();
        let line = format!(
            "{code:<DIGITS_WIDTH$} # {}: {} {says}",
            field.offset, field.name
        );
        text.push_str(line.trim_end());
        text.push('\n');
    }
    text
}

/// A comment for each filled slot of a valid store, and one for each run of empty
/// ones.
pub fn store(title: &str, octets: &[u8]) -> String {
    let mut text = head(title, octets.len());
    let slots = Slots::of(octets).expect("what the library wrote is valid");
    let mut was_empty = false;
    for slot in 0..SLOTS {
        let record = slots.iter().find(|(filled, _)| *filled == slot);
        let comment = match record {
            Some((_, record)) => format!("# slot {slot}: {}\n", record.title()),
            None if was_empty => String::new(),
            None => format!("# empty slots, from slot {slot} on\n"),
        };
        was_empty = record.is_none();
        text.push_str(&comment);
        for line in octets[SLOT_LENGTH * slot..][..SLOT_LENGTH].chunks(OCTETS_A_LINE) {
            text.push_str(&hex::text(line));
            text.push('\n');
        }
    }
    text
}

fn head(title: &str, length: usize) -> String {
    format!("# {title}, {length} octets, by nattveldi-inspect {VERSION}\n")
}
