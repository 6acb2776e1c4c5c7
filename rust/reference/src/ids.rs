//! The ids of a store, each once.

use crate::constants::SLOTS;

/// Bits of an id's hash.
const HASH_BITS: usize = 12;

/// Any odd number with its ones well spread: 2^64 over the golden ratio.
const SPREAD: u64 = 0x9e37_79b9_7f4a_7c15;

/// At most [`SLOTS`] ids that differ.
pub(crate) struct Ids {
    ids: [u64; SLOTS],
    count: usize,
    /// One bit for each hash; a zero shows that no id with this hash is among them.
    hashes: [u64; 1 << (HASH_BITS - 6)],
}

impl Ids {
    pub(crate) fn new() -> Self {
        Ids {
            ids: [0; SLOTS],
            count: 0,
            hashes: [0; 1 << (HASH_BITS - 6)],
        }
    }

    /// Adds an id, unless it is among them; tells whether it was added.
    #[inline(always)]
    pub(crate) fn add(&mut self, id: u64) -> bool {
        let hash = id.wrapping_mul(SPREAD) >> (64 - HASH_BITS);
        let hashes = &mut self.hashes[(hash >> 6) as usize];
        let bit = 1 << (hash & 63);
        if *hashes & bit != 0 && self.ids[..self.count].contains(&id) {
            return false;
        }
        *hashes |= bit;
        self.ids[self.count] = id;
        self.count += 1;
        true
    }
}

#[cfg(test)]
mod tests {
    use super::*;

    /// Ids with one hash in common, so that the bits of the hashes decide nothing.
    fn alike() -> [u64; SLOTS] {
        let hash = |id: u64| id.wrapping_mul(SPREAD) >> (64 - HASH_BITS);
        let mut numbers = (0..).filter(|id| hash(*id) == hash(0));
        [0; SLOTS].map(|_| numbers.next().unwrap())
    }

    #[test]
    fn ids_of_one_hash_are_told_apart() {
        let ids = alike();
        let mut set = Ids::new();
        for id in ids {
            assert!(set.add(id));
        }
        for id in ids {
            assert!(!set.add(id));
        }
    }

    #[test]
    fn a_second_is_found_behind_any_number_of_others() {
        for ids in [alike(), std::array::from_fn(|number| number as u64)] {
            for count in 1..SLOTS {
                for second in 0..count {
                    let mut set = Ids::new();
                    assert!(ids[..count].iter().all(|id| set.add(*id)));
                    assert!(!set.add(ids[second]));
                    assert!(set.add(ids[count]));
                }
            }
        }
    }
}
