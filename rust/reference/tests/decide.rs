//! Decide a message signed by an id: each answer by hand (document 01, "Order of checks").

mod common;

use common::chains::*;
use common::messages::*;
use common::stores::*;
use reference::constants::{
    BAD_CALL, BAD_STORE, CHAIN_TOO_LONG, NOT_PERMITTED, OUTSIDE_PERIOD, OUTSIDE_PLACE, OUT_OF_DATE,
    SIGNATURE, UNKNOWN, WITHDRAWN, WRONG_KIND,
};
use reference::{decide, Call, Decision, Part};

/// The slot of the drafts' signer, ticket 03.. of 200 to 300, in the example's store.
const TICKET: usize = 2;

/// A call with the example's store and the draft of a message by id, and what may be changed of it.
#[derive(Clone)]
struct Case {
    store: Vec<u8>,
    message: Vec<u8>,
    now: u64,
    position: (i32, i32),
    age: u64,
}

impl Case {
    fn new() -> Case {
        Case::of(&example(), &by_id())
    }

    fn of(stored: &[Fields], message: &MessageDraft) -> Case {
        Case {
            store: store_of(stored),
            message: message.octets(),
            now: GENERATION,
            position: (0, 0),
            age: 0,
        }
    }

    fn decide(&self, verdict: u8, certificate_verdict: u8) -> Result<Decision, u8> {
        let call = Call {
            store: &self.store,
            message: &self.message,
            now: self.now,
            latitude: self.position.0,
            longitude: self.position.1,
            age: self.age,
        };
        decide(&call, verdict, certificate_verdict)
    }

    /// With good verdicts.
    fn number(&self) -> u8 {
        self.decide(1, 1).err().unwrap_or(0)
    }
}

/// The drafts' message with other headers behind the signer's id.
fn with_headers(headers: &[Vec<u8>]) -> MessageDraft {
    message(&[signer_id(SIGNER), headers.concat()])
}

/// The draft generated at this microsecond.
fn generated_at(time: u64) -> MessageDraft {
    with_headers(&[generation_time(time), its_aid(36)])
}

/// The example with a ticket of this period, whose issuers have all the time there is.
fn with_period(start: u64, end: u64) -> Vec<Fields> {
    let mut stored = example();
    for issuer in [0, 1] {
        (stored[issuer].start, stored[issuer].end) = (0, LATEST_END);
    }
    (stored[TICKET].start, stored[TICKET].end) = (start, end);
    stored
}

#[test]
fn an_accepted_message() {
    let payload = Part {
        start: 25,
        length: 3,
    };
    let decision = Decision {
        payload,
        signer: SIGNER,
        permission: 36,
        generation_time: GENERATION,
    };
    let case = Case::new();
    assert_eq!(case.decide(1, 1), Ok(decision));
    assert_eq!(&case.message[25..28], b"pay");
}

/// The empty payload is the empty part at its own place.
#[test]
fn an_empty_payload() {
    let mut draft = by_id();
    draft.payload.clear();
    let decision = Case::of(&example(), &draft).decide(1, 1).unwrap();
    let payload = Part {
        start: 25,
        length: 0,
    };
    assert_eq!(decision.payload, payload);
}

#[test]
fn one_alone_is_a_good_verdict() {
    let case = Case::new();
    for octet in 0..=255 {
        let expected = if octet == 1 { Ok(()) } else { Err(SIGNATURE) };
        assert_eq!(case.decide(octet, 1).map(|_| ()), expected);
        // There is no embedded certificate.
        assert!(case.decide(1, octet).is_ok());
    }
}

#[test]
fn bad_calls() {
    for change in [
        |case: &mut Case| case.store.truncate(13_567),
        |case: &mut Case| case.store.push(0),
        |case: &mut Case| case.store.clear(),
        |case: &mut Case| case.position.0 = 900_000_001,
        |case: &mut Case| case.position.0 = -900_000_001,
        |case: &mut Case| case.position.1 = 1_800_000_001,
        |case: &mut Case| case.position.1 = -1_800_000_001,
        |case: &mut Case| case.position = (i32::MIN, i32::MIN),
        |case: &mut Case| case.position = (i32::MAX, i32::MAX),
        |case: &mut Case| case.age = 600_000_001,
        |case: &mut Case| case.age = u64::MAX,
    ] {
        let mut case = Case::new();
        change(&mut case);
        assert_eq!(case.number(), BAD_CALL);
    }
}

#[test]
fn calls_at_their_limits() {
    for position in [(900_000_000, 1_800_000_000), (-900_000_000, -1_800_000_000)] {
        let mut case = Case::new();
        case.position = position;
        case.age = 600_000_000;
        assert_eq!(case.number(), 0);
    }
}

/// The own position is tested also where the message has one.
#[test]
fn an_own_position_out_of_range() {
    let [time, .., its_aid] = all_headers();
    let mut case = Case::of(&example(), &with_headers(&[time, location(1, 1), its_aid]));
    assert_eq!(case.number(), 0);
    case.position = (900_000_001, 0);
    assert_eq!(case.number(), BAD_CALL);
}

/// A bad slot counts though the walk never meets it.
#[test]
fn a_bad_store() {
    let mut stored = example();
    stored[5].padding = 1;
    assert_eq!(Case::of(&stored, &by_id()).number(), BAD_STORE);
    stored[5].padding = 0;
    stored[5].id = stored[4].id;
    assert_eq!(Case::of(&stored, &by_id()).number(), BAD_STORE);
}

/// "Now 10,000,000, age 0: 8,000,000 and 12,000,000 pass; 7,999,999 and 12,000,001 are 14."
#[test]
fn the_worked_ages() {
    let at = |time| {
        let mut case = Case::of(&with_period(0, 1_000), &generated_at(time));
        case.now = 10_000_000;
        case.number()
    };
    assert_eq!(at(8_000_000), 0);
    assert_eq!(at(12_000_000), 0);
    assert_eq!(at(7_999_999), OUT_OF_DATE);
    assert_eq!(at(12_000_001), OUT_OF_DATE);
}

#[test]
fn ages_of_other_calls() {
    for age in [1, 2, 1_999_999, 2_000_000, 2_000_001, 600_000_000] {
        let at = |time| {
            let mut case = Case::of(&with_period(0, 2_000), &generated_at(time));
            (case.now, case.age) = (1_000_000_000, age);
            case.number()
        };
        assert_eq!(at(1_000_000_000 - age), 0, "{age}");
        assert_eq!(at(1_000_000_000 + age), 0, "{age}");
        assert_eq!(at(1_000_000_000 - age - 1), OUT_OF_DATE, "{age}");
        assert_eq!(at(1_000_000_000 + age + 1), OUT_OF_DATE, "{age}");
    }
}

/// Differences are exact; a second of so many bits is outside every period.
#[test]
fn times_at_the_ends_of_64_bits() {
    let answer = |time, now| {
        let mut case = Case::of(&with_period(0, LATEST_END), &generated_at(time));
        case.now = now;
        case.number()
    };
    assert_eq!(answer(0, 0), 0);
    assert_eq!(answer(0, 2_000_000), 0);
    assert_eq!(answer(0, 2_000_001), OUT_OF_DATE);
    assert_eq!(answer(2_000_000, 0), 0);
    assert_eq!(answer(2_000_001, 0), OUT_OF_DATE);
    assert_eq!(answer(0, u64::MAX), OUT_OF_DATE);
    assert_eq!(answer(u64::MAX, 0), OUT_OF_DATE);
    assert_eq!(answer(0, 1 << 63), OUT_OF_DATE);
    assert_eq!(answer(1 << 63, 0), OUT_OF_DATE);
    assert_eq!(answer(u64::MAX, u64::MAX), OUTSIDE_PERIOD);
    assert_eq!(answer(u64::MAX - 2_000_000, u64::MAX), OUTSIDE_PERIOD);
    assert_eq!(answer(u64::MAX - 2_000_001, u64::MAX), OUT_OF_DATE);
    assert_eq!(answer(u64::MAX, u64::MAX - 2_000_000), OUTSIDE_PERIOD);
    assert_eq!(answer(u64::MAX, u64::MAX - 2_000_001), OUT_OF_DATE);
    assert_eq!(answer(u64::MAX, 2_000_000), OUT_OF_DATE);
    assert_eq!(answer(1_000_000, u64::MAX - 1), OUT_OF_DATE);
}

fn expiring(time: u64, now: u64, second: u32) -> u8 {
    let headers = [generation_time(time), expiration(second), its_aid(36)];
    let mut case = Case::of(&with_period(0, LATEST_END), &with_headers(&headers));
    case.now = now;
    case.number()
}

/// "An expiration is at or before the whole second of now."
#[test]
fn expirations() {
    assert_eq!(expiring(GENERATION, 250_000_000, 251), 0);
    assert_eq!(expiring(GENERATION, 250_999_999, 251), 0);
    assert_eq!(expiring(GENERATION, 251_000_000, 251), OUT_OF_DATE);
    assert_eq!(expiring(GENERATION, 250_000_000, 250), OUT_OF_DATE);
    assert_eq!(expiring(GENERATION, 250_000_000, 0), OUT_OF_DATE);
    // Of now alone: the message is generated after it expires, or just before.
    assert_eq!(expiring(GENERATION, 249_999_999, 250), 0);
    assert_eq!(expiring(249_999_999, GENERATION, 250), OUT_OF_DATE);
}

#[test]
fn expirations_are_not_compared_in_32_bits() {
    let second = |second: u64| second * 1_000_000;
    let beyond = second((1 << 32) + 5);
    assert_eq!(expiring(beyond, beyond, 10), OUT_OF_DATE);
    assert_eq!(expiring(beyond, beyond, u32::MAX), OUT_OF_DATE);
    let last = second(u64::from(u32::MAX));
    assert_eq!(expiring(last, last, u32::MAX), OUT_OF_DATE);
    assert_eq!(expiring(last - 1, last - 1, u32::MAX), 0);
    let case = Case::of(&with_period(0, LATEST_END), &generated_at(beyond));
    let case = Case {
        now: beyond,
        ..case
    };
    assert_eq!(case.number(), 0);
}

/// Header 1 is read and has no effect.
#[test]
fn a_time_with_deviation_has_no_effect() {
    for time in [0, GENERATION, u64::MAX] {
        let headers = [
            generation_time(GENERATION),
            time_with_deviation(time),
            its_aid(36),
        ];
        let case = Case::of(&example(), &with_headers(&headers));
        let decision = case.decide(1, 1).unwrap();
        assert_eq!(decision.generation_time, GENERATION);
    }
}

#[test]
fn an_unknown_signer() {
    let answer = |stored: &[Fields], id| {
        let headers = [signer_id(id), generation_time(GENERATION), its_aid(36)];
        Case::of(stored, &message(&headers)).number()
    };
    assert_eq!(answer(&[], SIGNER), UNKNOWN);
    assert_eq!(answer(&example(), [9; 8]), UNKNOWN);
    assert_eq!(answer(&example()[..2], SIGNER), UNKNOWN);
    // An empty slot is not found by the id zero.
    assert_eq!(answer(&example(), [0; 8]), UNKNOWN);
    let mut stored = example();
    stored[TICKET].id = 0;
    assert_eq!(answer(&stored, [0; 8]), 0);
}

/// "A message signer of a kind other than 1 is 10", also a withdrawn one.
#[test]
fn signers_of_another_kind() {
    for (octet, slot) in [(1, 0), (2, 1)] {
        let headers = [
            signer_id([octet; 8]),
            generation_time(GENERATION),
            its_aid(36),
        ];
        let mut stored = example();
        assert_eq!(Case::of(&stored, &message(&headers)).number(), WRONG_KIND);
        stored[slot].state = 2;
        assert_eq!(Case::of(&stored, &message(&headers)).number(), WRONG_KIND);
    }
}

#[test]
fn refusals_of_the_walk() {
    let answer = |change: fn(&mut Vec<Fields>)| {
        let mut stored = example();
        change(&mut stored);
        Case::of(&stored, &by_id()).number()
    };
    assert_eq!(answer(|_| ()), 0);
    assert_eq!(answer(|stored| stored[2].state = 2), WITHDRAWN);
    assert_eq!(answer(|stored| stored[1].state = 2), WITHDRAWN);
    assert_eq!(answer(|stored| stored[0].state = 2), WITHDRAWN);
    assert_eq!(answer(|stored| stored[2].issuer = 9), UNKNOWN);
    assert_eq!(answer(|stored| stored[1].issuer = 9), UNKNOWN);
    assert_eq!(answer(|stored| stored[1].kind = 1), WRONG_KIND);
    assert_eq!(
        answer(|stored| stored[1].permissions[0] = 35),
        NOT_PERMITTED
    );
    assert_eq!(answer(|stored| stored[1].end = 299), OUTSIDE_PERIOD);
    let bound = |fields: &mut Fields| {
        (fields.rectangle_count, fields.rectangles[0]) = (1, [10, -10, -10, 10]);
    };
    let mut stored = example();
    bound(&mut stored[1]);
    assert_eq!(Case::of(&stored, &by_id()).number(), OUTSIDE_PLACE);
    stored[0..3].iter_mut().for_each(bound);
    assert_eq!(Case::of(&stored, &by_id()).number(), 0);
}

#[test]
fn the_eighth_certificate() {
    for length in 2..=10 {
        let mut stored = chain(length);
        stored.push(ticket(eight_times(3), length, 200, 300));
        // The ticket is one more.
        let expected = if length < 8 { 0 } else { CHAIN_TOO_LONG };
        assert_eq!(Case::of(&stored, &by_id()).number(), expected, "{length}");
    }
}

/// "The walk's second is the whole second of generation", not of now.
#[test]
fn the_second_of_the_walk() {
    let answer = |time, now| {
        let mut case = Case::of(&example(), &generated_at(time));
        case.now = now;
        case.number()
    };
    assert_eq!(answer(200_000_000, 199_999_999), 0);
    assert_eq!(answer(199_999_999, 200_000_000), OUTSIDE_PERIOD);
    assert_eq!(answer(299_999_999, 300_000_000), 0);
    assert_eq!(answer(300_000_000, 299_999_999), OUTSIDE_PERIOD);
}

/// "Its position the location header, else the caller's own."
#[test]
fn the_position_of_the_walk() {
    let mut stored = example();
    (stored[TICKET].rectangle_count, stored[TICKET].rectangles[0]) = (1, [10, -10, -10, 20]);
    let [inside, outside] = [(10, 20), (20, 10)];
    let answer = |own, header: Option<(i32, i32)>| {
        let header = header.map_or(vec![], |(latitude, longitude)| {
            location(latitude, longitude)
        });
        let headers = [generation_time(GENERATION), header, its_aid(36)];
        let mut case = Case::of(&stored, &with_headers(&headers));
        case.position = own;
        case.number()
    };
    assert_eq!(answer(inside, None), 0);
    assert_eq!(answer(outside, None), OUTSIDE_PLACE);
    assert_eq!(answer(outside, Some(inside)), 0);
    assert_eq!(answer(inside, Some(outside)), OUTSIDE_PLACE);
    assert_eq!(answer(inside, Some((-10, -10))), 0);
    assert_eq!(answer(inside, Some((-11, -10))), OUTSIDE_PLACE);
    assert_eq!(answer(inside, Some((-10, -11))), OUTSIDE_PLACE);
}

fn with_permissions(permissions: &[u64], asked: usize) -> Result<Decision, u8> {
    let mut stored = example();
    for fields in &mut stored[..3] {
        fields.permission_count = permissions.len() as u64;
        fields.permissions = [0; 16];
        fields.permissions[..permissions.len()].copy_from_slice(permissions);
    }
    let headers = [generation_time(GENERATION), its_aid(asked)];
    Case::of(&stored, &with_headers(&headers)).decide(1, 1)
}

#[test]
fn permissions() {
    let answer = |permissions: &[u64], asked| {
        with_permissions(permissions, asked).map(|decision| decision.permission)
    };
    assert_eq!(answer(&[36], 36), Ok(36));
    assert_eq!(answer(&[36], 37), Err(NOT_PERMITTED));
    assert_eq!(answer(&[36, 36, 37], 37), Ok(37));
    assert_eq!(answer(&[0], 0), Ok(0));
    let most = 268_435_455;
    assert_eq!(answer(&[most], most as usize), Ok(most as u32));
    let sixteen: Vec<u64> = (100..116).collect();
    assert_eq!(answer(&sixteen, 115), Ok(115));
    assert_eq!(answer(&sixteen, 116), Err(NOT_PERMITTED));
    // Unused room, which is zero, permits nothing.
    assert_eq!(answer(&[36], 0), Err(NOT_PERMITTED));
    assert_eq!(answer(&[], 0), Err(NOT_PERMITTED));
    assert_eq!(answer(&[], 36), Err(NOT_PERMITTED));
}

/// The signer's permissions decide, not those of its issuers.
#[test]
fn a_permission_of_the_issuer_alone() {
    let mut stored = example();
    for issuer in [0, 1] {
        stored[issuer].permission_count = 2;
        stored[issuer].permissions[1] = 37;
    }
    let headers = [generation_time(GENERATION), its_aid(37)];
    let case = Case::of(&stored, &with_headers(&headers));
    assert_eq!(case.number(), NOT_PERMITTED);
}
