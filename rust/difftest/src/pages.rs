//! Requests for a page, and what each side makes of them.

use nattveldi::raw::{self, PAGE_LENGTH};

use crate::sides::Side;

/// What stands in the buffer before a page is written to it; no text has it.
const FILL: u8 = 0xa5;

/// A page: its length, and the whole buffer after the call.
#[derive(Clone, Debug, PartialEq, Eq)]
pub struct Paged {
    pub length: usize,
    pub buffer: Vec<u8>,
}

impl Paged {
    /// A text at the front of the buffer, and nothing else written.
    pub fn of(text: &[u8]) -> Paged {
        let mut buffer = vec![FILL; PAGE_LENGTH];
        buffer[..text.len()].copy_from_slice(text);
        Paged {
            length: text.len(),
            buffer,
        }
    }

    pub fn text(&self) -> &[u8] {
        &self.buffer[..self.length]
    }
}

/// A side's page for what the program has on its standard input.
pub fn ask(side: Side, input: &[u8]) -> Paged {
    match side {
        Side::Library => {
            let mut buffer = vec![FILL; PAGE_LENGTH];
            let length = raw::page(input, &mut buffer) as usize;
            Paged { length, buffer }
        }
        Side::Bindings => Paged::of(nattveldi::page(input).as_bytes()),
        Side::Reference => Paged::of(&reference::page(input)),
    }
}
