//! Random questions, each asked as a list and a withdrawal, some as a page.

use difftest::compare::{self, withdrawal};
use difftest::counts::Counts;
use difftest::pages::Paged;
use difftest::questions::{self, Made};
use difftest::random::Random;
use difftest::{hex, seed};

use crate::tally;

const CASES: u64 = 20_000;
/// Of so many questions one is asked as a page.
const PAGES: u64 = 4;

/// Asks for the list. All sides agree on the number, on n and on every octet of
/// the list, and with the paper where its answer is known.
fn check_list(made: &Made, counts: &mut Counts) -> Result<(), String> {
    let agreed = withdrawal::list(&made.list)?;
    if let Some(known) = made.listed() {
        counts.known += 1;
        against_paper(withdrawal::lists(&agreed, &known))?;
    }
    counts.add(match (agreed.number, agreed.n) {
        (0, n @ (0 | 1)) => format!("list 0, n = {n}"),
        (0, 2..=8) => "list 0, n = 2 to 8".into(),
        (0, _) => "list 0, n > 8".into(),
        (number, _) => format!("list {number}"),
    });
    tally::add(counts, made, agreed.number);
    Ok(())
}

/// Withdraws: as above, on every octet of the store.
fn check_withdrawal(made: &Made, counts: &mut Counts) -> Result<(), String> {
    let agreed = withdrawal::withdraw(&made.withdrawal())?;
    if let Some(known) = made.withdrawn() {
        against_paper(compare::changes(&agreed, &known))?;
    }
    counts.add(format!("withdraw {}", agreed.number));
    Ok(())
}

/// Asks for the page: as above, on every octet of the buffer.
fn check_page(made: &Made, counts: &mut Counts) -> Result<(), String> {
    let agreed = withdrawal::page(&made.page())?;
    if let Some(known) = made.paged() {
        against_paper(withdrawal::texts(&agreed, &Paged::of(known.as_bytes())))?;
    }
    let text = String::from_utf8_lossy(agreed.text());
    counts.add(match (text.starts_with("refused"), text.lines().count()) {
        (true, _) => format!("page, {}", text.trim_end()),
        (false, 2) => "page, 0 rows".into(),
        (false, 3) => "page, 1 row".into(),
        (false, _) => "page, more rows".into(),
    });
    Ok(())
}

fn against_paper(difference: Option<String>) -> Result<(), String> {
    let said = |difference| format!("all sides against the paper: {difference}");
    difference.map_or(Ok(()), |difference| Err(said(difference)))
}

#[test]
fn questions() {
    let seed = seed::take("random withdrawals");
    let cases = seed::cases(CASES);
    let mut counts = Counts::default();
    for case in 0..cases {
        let made = questions::made(&mut Random::for_case(seed, case));
        let mut checked = check_list(&made, &mut counts);
        checked = checked.and_then(|()| check_withdrawal(&made, &mut counts));
        if case % PAGES == 0 {
            checked = checked.and_then(|()| check_page(&made, &mut counts));
        }
        if let Err(said) = checked {
            let (id, second) = (hex::text(&made.list.id), made.list.second);
            let told = format!("id {id}, second {second}, breaks {:?}", made.how);
            panic!("{said}\nDIFFTEST_SEED={seed}, case {case}, {told}");
        }
    }
    seed::tell(&format!(
        "random withdrawals: {cases} cases, {} with the paper's answer; {:?}",
        counts.known, counts.outcomes
    ));
    tally::check(&counts, cases, &format!("DIFFTEST_SEED={seed}"));
}
