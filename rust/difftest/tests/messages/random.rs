//! Random messages, each prepared and decided.

use difftest::counts::Counts;
use difftest::message::generate;
use difftest::message::scene::Made;
use difftest::random::Random;
use difftest::{hex, seed};

use crate::check::check;
use crate::tally;

const CASES: u64 = 60_000;

fn told(made: &Made) -> String {
    let Made {
        judgement,
        verdicts,
        how,
        ..
    } = made;
    let message = hex::text(&judgement.message);
    format!(
        "{:?}, {verdicts:?}, breaks {how:?}: {message}",
        judgement.situation
    )
}

#[test]
fn messages() {
    let seed = seed::take("random messages");
    let cases = seed::cases(CASES);
    let mut counts = Counts::default();
    for case in 0..cases {
        let made = generate::made(&mut Random::for_case(seed, case));
        let replay = || format!("DIFFTEST_SEED={seed}, case {case}, {}", told(&made));
        let number = check(&made).unwrap_or_else(|said| panic!("{said}\n{}", replay()));
        tally::add(&mut counts, &made, number);
    }
    seed::tell(&format!(
        "random messages: {cases} cases, {} with the paper's answer; {:?}",
        counts.known, counts.outcomes
    ));
    tally::check(&counts, cases, &format!("DIFFTEST_SEED={seed}"));
}
