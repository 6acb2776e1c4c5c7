//! Random requests to put a certificate into a store, library against
//! reference and against what the paper answers.

use difftest::changes::Operation;
use difftest::counts::Counts;
use difftest::scene::{self, Made};
use difftest::sides::{self, Side};
use difftest::{broken_admissions, compare, hex, plan, random::Random, seed};
use nattveldi::raw::word_at;

const CASES: u64 = 20_000;
/// What each operation can answer.
const INSTALL: [u8; 11] = [0, 1, 2, 3, 4, 5, 6, 10, 15, 16, 17];
const ADMIT: [u8; 16] = [0, 1, 2, 3, 4, 5, 6, 7, 8, 10, 11, 12, 13, 15, 16, 17];
const WRONG_KIND: u8 = 10;

/// Why `admit` answered 10.
const ROOT_ADMITTED: &str = "Admit 10, the certificate is a root";
const TICKET_ABOVE: &str = "Admit 10, the issuer is a ticket";

fn add(counts: &mut Counts, made: &Made, number: u8) {
    let operation = made.change.operation;
    counts.add(format!("{operation:?} {number}"));
    if number == WRONG_KIND && operation == Operation::Admit {
        counts.add(reason(&made.change.certificate));
    }
    counts.add_troubles(&made.how, number);
    counts.known += u64::from(made.answer.is_some());
}

fn reason(certificate: &[u8]) -> &'static str {
    let kind = sides::read(Side::Reference, certificate).words[word_at::KIND];
    if kind == u32::from(plan::ROOT) {
        ROOT_ADMITTED
    } else {
        TICKET_ABOVE
    }
}

/// All sides agree on the number and on every octet of the store, and with the
/// paper where its answer is known; a refusal leaves the store.
fn check(made: &Made, replay: &str) -> u8 {
    let Made {
        change,
        how,
        answer,
    } = made;
    let told = || {
        let certificate = hex::text(&change.certificate);
        format!("{replay}, {:?}, {how:?}: {certificate}", change.operation)
    };
    let agreed = compare::change(change).unwrap_or_else(|said| panic!("{said}\n{}", told()));
    if let Some(answer) = answer {
        let difference = compare::changes(&agreed, answer);
        assert_eq!(difference, None, "all sides against the paper\n{}", told());
    }
    let changed = agreed.store != change.store;
    assert_eq!(changed, agreed.number == 0, "{}", told());
    agreed.number
}

#[test]
fn requests() {
    let seed = seed::take("random admissions");
    let cases = seed::cases(CASES);
    let mut counts = Counts::default();
    for case in 0..cases {
        let made = scene::made(&mut Random::for_case(seed, case));
        let number = check(&made, &format!("DIFFTEST_SEED={seed}, case {case}"));
        add(&mut counts, &made, number);
    }
    seed::tell(&format!(
        "random admissions: {cases} cases, {} with the paper's answer; {:?}",
        counts.known, counts.outcomes
    ));
    check_counts(&counts, cases, &format!("DIFFTEST_SEED={seed}"));
}

/// Every number that can occur did, and every break was met alone.
fn check_counts(counts: &Counts, cases: u64, replay: &str) {
    assert_eq!(counts.numbers("Install "), INSTALL, "{replay}");
    assert_eq!(counts.numbers("Admit "), ADMIT, "{replay}");
    counts.check(
        &[(ROOT_ADMITTED, 1), (TICKET_ABOVE, 1)],
        cases,
        cases,
        replay,
    );
    counts.check_known(5, cases, replay);
    let names = broken_admissions::ALL.iter().map(|(name, _)| *name);
    counts.check_troubles(names, replay);
}
