//! The three pages of one store belong together: what stands, what a slot holds,
//! and what a withdrawal takes down.

use difftest::counts::Counts;
use difftest::lists::List;
use difftest::overview::layout;
use difftest::overview::lookups::Lookup;
use difftest::overview::standings::Standing;
use difftest::questions;
use difftest::random::Random;
use difftest::seed;
use difftest::sides::Side;
use difftest::slot::{SLOTS, SLOT_LENGTH};
use difftest::withdrawals::Withdrawal;

const STORES: u64 = 600;
/// Of so many stores, half of what is usual.
const FLOORS: [(&str, u64); 5] = [
    ("nothing fell", 100),
    ("some fell and some stand", 100),
    ("all fell", 35),
    ("withdrawn by a slot that stands", 1_000),
    ("withdrawn by a slot of the list", 330),
];
/// How many slots of a list are withdrawn at most.
const MOST: usize = 6;

/// A side that is asked all three pages.
struct Pages {
    side: Side,
    second: u32,
    /// For the report of a failure.
    replay: String,
}

impl Pages {
    fn standing(&self, store: &[u8]) -> Vec<u8> {
        let request = Standing {
            store: store.to_vec(),
            second: self.second,
            list: vec![0xee; SLOTS],
        };
        let answer = request.ask(self.side);
        assert_eq!(answer.number, 0, "{}: a valid store", self.replay);
        answer.list[..answer.n].to_vec()
    }

    /// The slots that fall with an id, if it is held.
    fn list(&self, store: &[u8], id: &[u8]) -> Option<Vec<u8>> {
        let request = List {
            store: store.to_vec(),
            id: id.to_vec(),
            second: self.second,
            list: vec![0xee; SLOTS],
        };
        let answer = request.ask(self.side);
        (answer.number == 0).then(|| answer.list[..answer.n].to_vec())
    }

    /// The store that the withdrawal of an id leaves.
    fn withdraw(&self, store: &[u8], id: &[u8]) -> Vec<u8> {
        let request = Withdrawal {
            store: store.to_vec(),
            id: id.to_vec(),
        };
        let answer = request.ask(self.side);
        assert_eq!(answer.number, 0, "{}: held", self.replay);
        answer.store
    }

    fn stored(&self, store: &[u8], slot: u8) -> Vec<u8> {
        let request = Lookup {
            store: store.to_vec(),
            slot: slot.into(),
        };
        let answer = request.ask(self.side, &[0; layout::LENGTH]);
        assert_eq!(answer.number, 0, "{}: slot {slot}", self.replay);
        answer.buffer
    }

    /// The id of a slot's certificate withdraws it: this slot alone changes, and
    /// of what it holds the state alone.
    fn check_withdrawal(&self, store: &[u8], slot: u8) {
        let held = self.stored(store, slot);
        let after = self.withdraw(store, &held[..8]);
        let slots = |store: &[u8]| store.chunks(SLOT_LENGTH).map(<[u8]>::to_vec).collect();
        let (before, left): (Vec<_>, Vec<_>) = (slots(store), slots(&after));
        let changed = |slot: &usize| before[*slot] != left[*slot];
        let changed: Vec<usize> = (0..SLOTS).filter(changed).collect();
        assert_eq!(changed, [usize::from(slot)], "{}: slots", self.replay);
        let mut expected = held;
        assert_eq!(expected[16..20], [0, 0, 0, 1], "{}: before", self.replay);
        expected[19] = 2;
        assert_eq!(
            self.stored(&after, slot),
            expected,
            "{}: after",
            self.replay
        );
    }

    /// The list is what stands before the withdrawal and not after it, and all
    /// that stands after stood before.
    fn check_list(&self, store: &[u8], id: &[u8]) -> Option<(Vec<u8>, Vec<u8>)> {
        let fallen = self.list(store, id)?;
        let before = self.standing(store);
        let after = self.standing(&self.withdraw(store, id));
        let (stay, fell): (Vec<u8>, Vec<u8>) = before.iter().partition(|slot| after.contains(slot));
        assert_eq!(fallen, fell, "{}: fell", self.replay);
        assert_eq!(after, stay, "{}: stay", self.replay);
        Some((before, fallen))
    }

    /// Withdraws by the slots that the two lists name, some of each.
    fn check(&self, store: &[u8], id: &[u8], random: &mut Random, counts: &mut Counts) {
        let Some((stood, fallen)) = self.check_list(store, id) else {
            return;
        };
        counts.add(match (fallen.len(), stood.len()) {
            (0, _) => "nothing fell",
            (fell, stood) if fell == stood => "all fell",
            _ => "some fell and some stand",
        });
        for (mut slots, by) in [
            (stood, "withdrawn by a slot that stands"),
            (fallen, "withdrawn by a slot of the list"),
        ] {
            random.shuffle(&mut slots);
            for slot in slots.into_iter().take(MOST) {
                self.check_withdrawal(store, slot);
                counts.add(by);
            }
        }
    }
}

#[test]
fn three_pages_of_one_store() {
    let seed = seed::take("three pages");
    for side in Side::ALL {
        let mut counts = Counts::default();
        for case in 0..STORES {
            let random = &mut Random::for_case(seed, case);
            let made = questions::sound(random).list;
            let pages = Pages {
                side,
                second: made.second,
                replay: format!("DIFFTEST_SEED={seed}, case {case}, {side:?}"),
            };
            pages.check(&made.store, &made.id, random, &mut counts);
        }
        let replay = format!("DIFFTEST_SEED={seed}, {side:?}");
        seed::tell(&format!("three pages, {side:?}: {:?}", counts.outcomes));
        counts.check(&FLOORS, STORES, STORES, &replay);
    }
}
