//! The withdrawal page as text.

use alloc::string::String;
use alloc::vec;

use crate::raw::{self, PAGE_LENGTH};

/// The text that the program `page` prints when it has this on its standard
/// input: a store, an id and a second, big-endian. A refusal is a text too.
///
/// # Panics
///
/// With another archive than these bindings were written for.
///
/// ```
/// # mod sample { include!(concat!(env!("CARGO_MANIFEST_DIR"), "/tests/sample/mod.rs")); }
/// use nattveldi::{id, page, Store, Verdict};
///
/// let root = sample::root("R");
/// let mut store = Store::new();
/// store.install(&root, Verdict::Good)?;
///
/// let (id, second) = (id(&root)?, 220_u32.to_be_bytes());
/// let text = page(&[&store.as_octets()[..], id.as_octets(), &second].concat());
/// let lines: Vec<&str> = text.lines().collect();
/// assert_eq!(lines[0], format!("withdraw {id} at 220"));
/// assert_eq!(lines[1], format!("0 {id} root 52"));
/// assert_eq!(lines[2], "1 certificates");
///
/// let text = page(&[&store.as_octets()[..], b"unknown!", &second].concat());
/// assert_eq!(text, "refused 7\n");
/// assert_eq!(page(store.as_octets()), "refused 1\n");
/// # Ok::<(), nattveldi::Refusal>(())
/// ```
#[must_use]
pub fn page(input: &[u8]) -> String {
    let mut text = vec![0; PAGE_LENGTH];
    let length = raw::page(input, &mut text);
    text.truncate(length as usize);
    String::from_utf8(text).expect("the archive writes plain characters")
}
