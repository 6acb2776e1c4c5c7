//! Buffers for what a certificate says, and the store that it goes into.

use difftest::buffers::{FILLS, LONGER};
use difftest::draft::Draft;
use difftest::entry::{self, Entry, Slots, HELD};
use difftest::plan::{Plan, ROOT};
use difftest::random::Random;
use difftest::sides::{self, Side};
use difftest::slot::{SLOTS, SLOT_LENGTH, STORE_LENGTH};
use nattveldi::raw;

const BAD_CALL: u8 = 1;

type Call = fn(&[u8], &mut [u8]) -> u8;

fn certificates() -> Vec<Vec<u8>> {
    (0..50)
        .map(|case| {
            Draft::of(&Plan::random(&mut Random::for_case(3, case)))
                .encode()
                .octets()
        })
        .collect()
}

/// Certificates that are refused, one for each number.
fn refused() -> Vec<(u8, Vec<u8>)> {
    let accepted = &certificates()[0];
    let cut = accepted[..accepted.len() - 1].to_vec();
    let left_over = [&accepted[..], &[0]].concat();
    let other_version = [&[3], &accepted[1..]].concat();
    let too_long = [&accepted[..], &[0; 1_024]].concat();
    vec![
        (4, Vec::new()),
        (4, cut),
        (5, left_over),
        (6, other_version),
        (3, too_long),
    ]
}

/// A buffer that is too short is answered 1, whatever the certificate, and
/// stays as it was.
fn check_short(call: Call, needed: usize) {
    let accepted = certificates().into_iter().take(5);
    let all = accepted.chain(refused().into_iter().map(|(_, certificate)| certificate));
    for certificate in all {
        for length in 0..needed {
            let mut buffer = vec![FILLS[0]; length];
            assert_eq!(
                call(&certificate, &mut buffer),
                BAD_CALL,
                "a buffer of {length}"
            );
            assert!(
                buffer.iter().all(|&octet| octet == FILLS[0]),
                "a buffer of {length}"
            );
        }
    }
}

fn check_refused(call: Call, needed: usize) {
    for (number, certificate) in refused() {
        for length in LONGER.map(|more| needed + more) {
            let mut buffer = vec![FILLS[0]; length];
            assert_eq!(
                call(&certificate, &mut buffer),
                number,
                "a buffer of {length}"
            );
            assert!(
                buffer.iter().all(|&octet| octet == FILLS[0]),
                "{number}, a buffer of {length}"
            );
        }
    }
}

/// The answer fills exactly the first octets, whatever they were before.
fn check_accepted(call: Call, expected: impl Fn(&[u8]) -> Vec<u8>) {
    for certificate in certificates() {
        let expected = expected(&certificate);
        for length in LONGER.map(|more| expected.len() + more) {
            for fill in FILLS {
                let mut buffer = vec![fill; length];
                assert_eq!(call(&certificate, &mut buffer), 0);
                let (written, behind) = buffer.split_at(expected.len());
                assert_eq!(written, expected);
                assert!(
                    behind.iter().all(|&octet| octet == fill),
                    "a buffer of {length}"
                );
            }
        }
    }
}

#[test]
fn short_buffers() {
    check_short(raw::read, raw::FIELDS_LENGTH);
    check_short(raw::id, raw::ID_LENGTH);
}

#[test]
fn refusals_leave_the_buffer() {
    check_refused(raw::read, raw::FIELDS_LENGTH);
    check_refused(raw::id, raw::ID_LENGTH);
}

#[test]
fn answers_fill_the_buffers_front() {
    check_accepted(raw::read, |certificate| {
        let words = sides::read(Side::Reference, certificate).words;
        words.into_iter().flat_map(u32::to_be_bytes).collect()
    });
    check_accepted(raw::id, |certificate| {
        sides::id(Side::Reference, certificate).id.to_vec()
    });
}

/// Of a store with one empty slot that slot is written and no other; what
/// stands before the store and behind it in memory stays.
#[test]
fn one_slot_is_written() {
    const AROUND: usize = 300;
    let mut random = Random::new(5);
    let plan = Plan::of_kind(ROOT, &mut random);
    let certificate = Draft::of(&plan).encode().octets();
    let id = sides::id(Side::Reference, &certificate).id;
    let image = Entry::of(&plan, id, HELD).image();
    let mut slots: Slots = std::array::from_fn(|_| Some(Entry::random(&mut random)));
    for empty in 0..SLOTS {
        let kept = slots[empty].take();
        let mut memory = vec![FILLS[0]; STORE_LENGTH + 2 * AROUND];
        memory[AROUND..][..STORE_LENGTH].copy_from_slice(&entry::store(&slots));
        let mut expected = memory.clone();
        expected[AROUND + empty * SLOT_LENGTH..][..SLOT_LENGTH].copy_from_slice(&image);
        let store = &mut memory[AROUND..][..STORE_LENGTH];
        assert_eq!(raw::install(store, &certificate, 1), 0, "slot {empty}");
        assert!(memory == expected, "slot {empty}");
        slots[empty] = kept;
    }
}
