//! Requests for all that stands, and what each side makes of them.

use nattveldi::raw::{self, LIST_LENGTH};
use nattveldi::{Refusal, Second, Store};

use crate::buffers;
use crate::lists::{self, Listed};
use crate::sides::Side;

/// A request for the slots of the certificates that stand at a second.
#[derive(Clone, Debug, PartialEq)]
pub struct Standing {
    pub store: Vec<u8>,
    pub second: u32,
    /// What is lent for the slot numbers.
    pub list: Vec<u8>,
}

impl Standing {
    /// A side's answer. The request stays as it is.
    pub fn ask(&self, side: Side) -> Listed {
        let mut list = self.list.clone();
        let answer = match side {
            Side::Library => self.ask_library(&mut list),
            // As for a withdrawal's list.
            Side::Bindings if list.len() < LIST_LENGTH => self.ask_library(&mut list),
            Side::Bindings => Store::from_octets(&self.store)
                .map(|store| lists::put(&store.standing(Second(self.second)), &mut list))
                .map_err(Refusal::number),
            Side::Reference => reference::standing(&self.store, self.second, &mut list),
        };
        Listed::of(answer, list)
    }

    fn ask_library(&self, list: &mut [u8]) -> Result<usize, u8> {
        let call = |store: &[u8]| raw::standing(store, self.second, list);
        lists::counted(buffers::unchanged(&self.store, call))
    }
}
