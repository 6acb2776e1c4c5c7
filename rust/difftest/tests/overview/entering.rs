//! A certificate that goes in is stored: what its slot holds is what reading it
//! and its id say.

use difftest::changes::Operation;
use difftest::counts::Counts;
use difftest::entry::{Entry, HELD};
use difftest::overview::layout;
use difftest::overview::lookups::Lookup;
use difftest::random::Random;
use difftest::scene::Scene;
use difftest::seed;
use difftest::sides::{self, Side};
use difftest::slot::SLOTS;
use nattveldi::raw::word_at;

const CERTIFICATES: u64 = 1_000;
/// Of so many certificates, half of what is usual.
const FLOORS: [(&str, u64); 2] = [("Install", 150), ("Admit", 300)];

/// What a side reads of a certificate, as a store keeps it.
fn read(side: Side, certificate: &[u8]) -> Entry {
    let reading = sides::read(side, certificate);
    assert_eq!(reading.number, 0, "a sound certificate");
    let word = |at: usize| reading.words[at];
    let part = |at: usize| &certificate[word(at) as usize..][..word(at + 1) as usize];
    let edge = |at: usize| word(word_at::RECTANGLES + at) as i32;
    let rectangle = |i: u32| std::array::from_fn(|side| edge(4 * i as usize + side));
    let permission = |i: u32| word(word_at::PERMISSIONS + i as usize);
    Entry {
        id: sides::id(side, certificate).id,
        // A root has no issuer, which a store keeps as zeros.
        issuer: part(word_at::ISSUER).try_into().unwrap_or_default(),
        state: HELD,
        kind: word(word_at::KIND) as u8,
        start: word(word_at::START),
        end: u64::from(word(word_at::END)) << 32 | u64::from(word(word_at::END + 1)),
        name: part(word_at::NAME).to_vec(),
        parity: word(word_at::KEY_TYPE) as u8 - 2,
        key: part(word_at::KEY).try_into().expect("32 octets"),
        rectangles: (0..word(word_at::RECTANGLE_COUNT)).map(rectangle).collect(),
        permissions: (0..word(word_at::PERMISSION_COUNT))
            .map(permission)
            .collect(),
    }
}

/// The one slot that is empty before and filled after.
fn written(side: Side, before: &[u8], after: &[u8]) -> (u64, Vec<u8>) {
    let look = |store: &[u8], slot| {
        let store = store.to_vec();
        Lookup { store, slot }.ask(side, &[0; layout::LENGTH])
    };
    let slot = (0..SLOTS as u64).find(|&slot| look(before, slot).number == 7);
    let slot = slot.expect("an empty slot");
    let found = look(after, slot);
    assert_eq!(found.number, 0, "slot {slot} is filled");
    (slot, found.buffer)
}

#[test]
fn what_goes_in_is_stored() {
    let seed = seed::take("entering");
    let mut counts = Counts::default();
    for case in 0..CERTIFICATES {
        let random = &mut Random::for_case(seed, case);
        let change = Scene::sound(random).made(Vec::new(), random).change;
        let side = random.pick(&Side::ALL);
        let replay = format!("DIFFTEST_SEED={seed}, case {case}, {side:?}");
        let changed = change.ask(side);
        assert_eq!(changed.number, 0, "{replay}");
        let (slot, stored) = written(side, &change.store, &changed.store);
        let expected = layout::octets(&read(side, &change.certificate));
        assert_eq!(stored, expected, "{replay}, slot {slot}");
        counts.add(match change.operation {
            Operation::Install => "Install",
            Operation::Admit => "Admit",
        });
    }
    let replay = format!("DIFFTEST_SEED={seed}");
    counts.check(&FLOORS, CERTIFICATES, CERTIFICATES, &replay);
}
