//! The text of the program `page` (document 01, "The page program").

use crate::constants::{AUTHORITY, BAD_CALL, SLOTS, STORE_LENGTH, TICKET};
use crate::decode::decode;
use crate::store::slots;
use crate::withdrawal::list;

/// What the program prints for this standard input; every line ends with a line feed.
pub fn page(input: &[u8]) -> Vec<u8> {
    let text = try_page(input).unwrap_or_else(|number| format!("refused {number}\n"));
    text.into_bytes()
}

fn try_page(input: &[u8]) -> Result<String, u8> {
    let (store, id, second) = split(input).ok_or(BAD_CALL)?;
    let mut listed = [0; SLOTS];
    let n = list(store, id, second, &mut listed)?;
    let mut text = format!("withdraw {} at {second}\n", hex(id));
    for number in &listed[..n] {
        let record = decode(&slots(store)[usize::from(*number)]);
        text += &format!(
            "{number} {} {} {}\n",
            hex(&record.id),
            kind(record.kind),
            name(record.name())
        );
    }
    text += &format!("{n} certificates\n");
    Ok(text)
}

/// "Standard input holds the store, 8 octets id, 4 octets second, big-endian: 13,580 octets."
fn split(input: &[u8]) -> Option<(&[u8], &[u8; 8], u32)> {
    let (store, rest) = input.split_at_checked(STORE_LENGTH)?;
    let (id, second) = rest.split_first_chunk()?;
    let second = second.try_into().ok()?;
    Some((store, id, u32::from_be_bytes(second)))
}

/// "Hex (lowercase throughout)"
fn hex(octets: &[u8]) -> String {
    const DIGITS: &[u8; 16] = b"0123456789abcdef";
    let mut text = String::with_capacity(2 * octets.len());
    for octet in octets {
        text.push(DIGITS[usize::from(octet >> 4)].into());
        text.push(DIGITS[usize::from(octet & 15)].into());
    }
    text
}

/// "`root`, `authority` or `ticket`"
fn kind(kind: u8) -> &'static str {
    match kind {
        TICKET => "ticket",
        AUTHORITY => "authority",
        _ => "root",
    }
}

/// "Name in hex or `-`"
fn name(name: &[u8]) -> String {
    if name.is_empty() {
        return "-".to_string();
    }
    hex(name)
}
