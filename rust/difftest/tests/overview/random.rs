//! Random stores, each asked what a slot holds and what stands.

use difftest::compare::{overview, withdrawal};
use difftest::counts::Counts;
use difftest::overview::generate::{self, Made};
use difftest::random::Random;
use difftest::seed;

use crate::tally;

const CASES: u64 = 20_000;

/// Asks what a slot holds. All sides agree on the number and on every octet of
/// the buffer, and with the paper where its answer is known.
fn check_stored(made: &Made, counts: &mut Counts) -> Result<(), String> {
    let agreed = overview::stored(&made.lookup(), &made.buffer)?;
    if let Some(known) = made.found() {
        counts.known += 1;
        against_paper(overview::finds(&agreed, &known))?;
    }
    tally::add_stored(counts, made, &agreed);
    Ok(())
}

/// Asks what stands: as above, on n and on every octet of the list.
fn check_standing(made: &Made, counts: &mut Counts) -> Result<(), String> {
    let agreed = overview::standing(&made.standing())?;
    if let Some(known) = made.listed() {
        against_paper(withdrawal::lists(&agreed, &known))?;
    }
    tally::add_standing(counts, made, &agreed);
    Ok(())
}

fn against_paper(difference: Option<String>) -> Result<(), String> {
    let said = |difference| format!("all sides against the paper: {difference}");
    difference.map_or(Ok(()), |difference| Err(said(difference)))
}

#[test]
fn overviews() {
    let seed = seed::take("random overviews");
    let cases = seed::cases(CASES);
    let mut counts = Counts::default();
    for case in 0..cases {
        let made = generate::made(&mut Random::for_case(seed, case));
        let checked = check_stored(&made, &mut counts);
        if let Err(said) = checked.and_then(|()| check_standing(&made, &mut counts)) {
            let (slot, second) = (made.slot, made.second);
            let told = format!("slot {slot}, second {second}, breaks {:?}", made.how);
            panic!("{said}\nDIFFTEST_SEED={seed}, case {case}, {told}");
        }
    }
    seed::tell(&format!(
        "random overviews: {cases} cases, {} with the paper's answer; {:?}",
        counts.known, counts.outcomes
    ));
    tally::check(&counts, cases, &format!("DIFFTEST_SEED={seed}"));
}
