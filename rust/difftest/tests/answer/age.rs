//! The paper's worked numbers about time, which are not among the proved ones:
//! "Now 10,000,000, age 0: 8,000,000 and 12,000,000 pass; 7,999,999 and
//! 12,000,001 are 14" and "Period 200 to 300: 299 in, 300 out". Stores,
//! messages and answers are written by hand.

use crate::program::lines;

/// A held root with id 01.., from second 0 to 1,000, with permission 36 alone:
/// octet 16 has the state 01 and the kind 100; the end's last bit is bit 202, so
/// that octets 24 and 25 have 1,000 << 5, hex 7d00; the last bit of the
/// permissions' count is bit 1,241, hex 40 in octet 155, and that of the first
/// permission bit 1,269, so that octet 158 has 36 << 2, hex 90.
const ROOT: &str = "0101010101010101(8)60(7)7d00(129)40000090(53)";

/// A held ticket with id 03.. below it, with the same period: kind 001.
const TICKET: &str = "0303030303030303010101010101010148(7)7d00(129)40000090(53)";

/// The same from 200 to 300: the start's last bit is bit 164, so that octets 19
/// and 20 have 200 << 3, hex 640, and octets 24 and 25 have 300 << 5, hex 2580.
const TICKET_FROM_200: &str = "0303030303030303010101010101010148(2)0640(3)2580(129)40000090(53)";

/// The store of a root and a ticket; 62 slots are empty.
fn store(ticket: &str) -> String {
    format!("{ROOT}{ticket}(13144)")
}

/// Signed by id 03.. under permission 36, with the payload "pay": headers of 21
/// octets, so that the payload is octets 25 to 27 and the signature octets 30
/// to 95.
fn message(generation_time: u64) -> String {
    format!("02158001030303030303030300{generation_time:016x}052401037061794301(66)")
}

fn accepted(generation_time: u64) -> String {
    format!("0 25 3 0303030303030303 36 {generation_time}")
}

/// The key is zero, with an even y; the signature covers what is before it.
fn asked() -> String {
    let zeros = "00".repeat(32);
    format!("0 0,30 2 {zeros} 30,66 0,0 0 {zeros} 0,0")
}

fn refused(number: u8) -> [String; 2] {
    let zeros = "00".repeat(32);
    [
        format!("{number} 0 0 0000000000000000 0 0"),
        format!("{number} 0,0 0 {zeros} 0,0 0,0 0 {zeros} 0,0"),
    ]
}

/// A message that is judged at a time with an allowed age, and the number.
struct Case {
    generation_time: u64,
    now: u64,
    age: u64,
    number: u8,
}

const fn case(generation_time: u64, now: u64, age: u64, number: u8) -> Case {
    Case {
        generation_time,
        now,
        age,
        number,
    }
}

fn check(ticket: &str, cases: &[Case]) {
    let store = store(ticket);
    let (mut input, mut expected) = (String::new(), Vec::new());
    for case in cases {
        let words = format!(
            "{store} {} {} 0 0 {}",
            message(case.generation_time),
            case.now,
            case.age
        );
        input += &format!("decide {words} 1 0\nprepare {words}\n");
        expected.extend(match case.number {
            0 => [accepted(case.generation_time), asked()],
            number => refused(number),
        });
    }
    for side in [&[][..], &["--reference"]] {
        assert_eq!(lines(side, input.as_bytes()), expected, "{side:?}");
    }
}

#[test]
fn age_of_the_paper() {
    let now = 10_000_000;
    check(
        TICKET,
        &[
            case(8_000_000, now, 0, 0),
            case(12_000_000, now, 0, 0),
            case(7_999_999, now, 0, 14),
            case(12_000_001, now, 0, 14),
        ],
    );
}

/// An age that is given takes the place of 2,000,000; one over 600,000,000 is a
/// bad call.
#[test]
fn other_ages() {
    let now = 700_000_000;
    check(
        TICKET,
        &[
            case(700_000_001, now, 1, 0),
            case(699_999_999, now, 1, 0),
            case(700_000_002, now, 1, 14),
            case(699_999_998, now, 1, 14),
            case(100_000_000, now, 600_000_000, 0),
            case(99_999_999, now, 600_000_000, 14),
            case(100_000_000, now, 600_000_001, 1),
            case(0, u64::MAX, 600_000_000, 14),
            case(u64::MAX, 0, 600_000_000, 14),
        ],
    );
}

/// The second is that of generation, whatever the time is now.
#[test]
fn period_of_the_paper() {
    check(
        TICKET_FROM_200,
        &[
            case(299_999_999, 300_500_000, 0, 0),
            case(300_000_000, 299_500_000, 0, 12),
            case(200_000_000, 199_000_000, 0, 0),
            case(199_999_999, 201_000_000, 0, 12),
        ],
    );
}
