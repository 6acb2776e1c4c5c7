//! Answer lines about what a slot holds.

use nattveldi::raw::{octet_at, ACCEPTED};

use super::list;
use crate::hex;
use crate::overview::lookups::Found;

/// `NUMBER`, and where it is 0 also `STATE ID ISSUER KIND NAME PARITY KEY START
/// END REGION PERMISSIONS`
pub fn stored(answer: &Found) -> String {
    if answer.number != ACCEPTED {
        return answer.number.to_string();
    }
    let fields = Fields(&answer.buffer);
    format!(
        "0 {} {} {} {} {} {} {} {} {} {} {}",
        fields.word(octet_at::STORED_STATE),
        fields.octets(octet_at::STORED_ID, 8),
        fields.octets(octet_at::STORED_ISSUER, 8),
        fields.word(octet_at::STORED_KIND),
        fields.name(),
        fields.word(octet_at::STORED_KEY_PARITY),
        fields.octets(octet_at::STORED_KEY, 32),
        fields.word(octet_at::STORED_START),
        fields.end(),
        fields.region(),
        fields.permissions(),
    )
}

/// What an accepted call wrote, as the format shows it.
struct Fields<'a>(&'a [u8]);

impl Fields<'_> {
    fn array<const N: usize>(&self, at: usize) -> [u8; N] {
        std::array::from_fn(|i| self.0[at + i])
    }

    fn word(&self, at: usize) -> u32 {
        u32::from_be_bytes(self.array(at))
    }

    fn octets(&self, at: usize, length: usize) -> String {
        hex::text(&self.0[at..][..length])
    }

    fn name(&self) -> String {
        let length = self.word(octet_at::STORED_NAME_LENGTH);
        self.octets(octet_at::STORED_NAME, length as usize)
    }

    fn end(&self) -> u64 {
        u64::from_be_bytes(self.array(octet_at::STORED_END))
    }

    fn region(&self) -> String {
        let edge = |at| (self.word(at) as i32).to_string();
        let rectangle = |i: u32| {
            let at = octet_at::STORED_RECTANGLES + 16 * i as usize;
            list((0..4).map(|i| edge(at + 4 * i)), ",")
        };
        let count = self.word(octet_at::STORED_RECTANGLE_COUNT);
        list((0..count).map(rectangle), ";")
    }

    fn permissions(&self) -> String {
        let at = |i: u32| octet_at::STORED_PERMISSIONS + 4 * i as usize;
        let count = self.word(octet_at::STORED_PERMISSION_COUNT);
        list((0..count).map(|i| self.word(at(i)).to_string()), ",")
    }
}
