//! Random and damaged certificates, library against reference.

use difftest::counts::Counts;
use difftest::generate::{self, Made, VALID};
use difftest::random::Random;
use difftest::sides::{self, Side};
use difftest::{answers, compare, hex, seed};

const CASES: u64 = 100_000;
const LONGEST: usize = 1_100;
/// What `read` and `id` answer when their buffers are long enough.
const NUMBERS: [u8; 5] = [0, 3, 4, 5, 6];

fn check(made: &Made, replay: &str) -> u8 {
    let Made {
        octets,
        how,
        answer,
    } = made;
    let told = || format!("{replay}, {how}: {}", hex::text(octets));
    let number = compare::certificate(octets).unwrap_or_else(|said| panic!("{said}\n{}", told()));
    if let Some(answer) = answer {
        let given = answers::reading(octets, &sides::read(Side::Library, octets));
        assert_eq!(&given, answer, "{}", told());
    }
    number
}

#[test]
fn certificates() {
    let seed = seed::take("random certificates");
    let cases = seed::cases(CASES);
    let mut counts = Counts::default();
    for case in 0..cases {
        let made = generate::made(&mut Random::for_case(seed, case));
        let number = check(&made, &format!("DIFFTEST_SEED={seed}, case {case}"));
        counts.add(number.to_string());
        counts.add_troubles(&[made.how], number);
    }
    seed::tell(&format!(
        "random certificates: {cases} cases, numbers {:?}",
        counts.outcomes
    ));
    check_counts(&counts, cases, &format!("DIFFTEST_SEED={seed}"));
}

/// Every number came up, every way of making a case was taken, and those that
/// break a rule led to a refusal; that a valid one is read is checked above.
fn check_counts(counts: &Counts, cases: u64, replay: &str) {
    assert_eq!(counts.numbers(""), NUMBERS, "{replay}: the numbers seen");
    counts.check(&[("0", cases / 5)], cases, cases, replay);
    let breaking = generate::ways().into_iter().filter(|&how| how != VALID);
    counts.check_troubles(breaking, replay);
}

/// Random octets of every length, once as they are and once behind the head
/// of a root.
#[test]
fn octets_of_every_length() {
    let seed = seed::take("random octets");
    for length in 0..=LONGEST {
        let mut random = Random::for_case(seed, length as u64);
        let octets = random.octets(length);
        let mut headed = [&[2, 0, 4, 0], &octets[..]].concat();
        headed.truncate(length);
        for octets in [octets, headed] {
            let made = Made {
                octets,
                how: "octets",
                answer: None,
            };
            let number = check(&made, &format!("DIFFTEST_SEED={seed}, length {length}"));
            assert_eq!(
                number == 3,
                length > 1_024,
                "length {length} answered {number}"
            );
        }
    }
}
