//! What came up in a random run, and how often.

use std::collections::{BTreeMap, BTreeSet};

#[derive(Default)]
pub struct Counts {
    pub outcomes: BTreeMap<String, u64>,
    /// The numbers of the answers where there was one break alone.
    breaks: BTreeMap<&'static str, BTreeSet<u8>>,
    /// How many cases had their answer from the paper.
    pub known: u64,
}

impl Counts {
    pub fn add(&mut self, outcome: impl Into<String>) {
        *self.outcomes.entry(outcome.into()).or_default() += 1;
    }

    /// Keeps the number of an answer if there was one break alone.
    pub fn add_troubles(&mut self, how: &[&'static str], number: u8) {
        if let [name] = how[..] {
            self.breaks.entry(name).or_default().insert(number);
        }
    }

    pub fn seen(&self, outcome: &str) -> u64 {
        self.outcomes.get(outcome).copied().unwrap_or(0)
    }

    /// The numbers of the outcomes that are such a start and a number.
    pub fn numbers(&self, start: &str) -> Vec<u8> {
        let number = |outcome: &String| outcome.strip_prefix(start)?.parse().ok();
        let numbers: BTreeSet<u8> = self.outcomes.keys().filter_map(number).collect();
        numbers.into_iter().collect()
    }

    /// So many tenths of the cases must have had their answer from the paper.
    pub fn check_known(&self, tenths: u64, cases: u64, replay: &str) {
        let known = self.known;
        assert!(
            10 * known >= tenths * cases,
            "{replay}: {known} answers known of {cases}"
        );
    }

    /// Each outcome must have come up as often as its floor says, which is that
    /// of so many cases.
    pub fn check(&self, floors: &[(&str, u64)], floors_are_of: u64, cases: u64, replay: &str) {
        for (outcome, floor) in floors {
            let seen = self.seen(outcome);
            assert!(
                seen * floors_are_of >= floor * cases,
                "{replay}: {outcome}: {seen} times in {cases}"
            );
        }
    }

    /// Each break must have come up alone and led to a refusal.
    pub fn check_troubles(&self, names: impl Iterator<Item = &'static str>, replay: &str) {
        for name in names {
            let numbers = self.breaks.get(name);
            let numbers = numbers.unwrap_or_else(|| panic!("{replay}: no case of {name}"));
            let refused = numbers.iter().any(|&number| number != 0);
            assert!(refused, "{replay}: {name} answered {numbers:?}");
        }
    }
}

#[cfg(test)]
mod tests {
    use super::*;

    fn counted() -> Counts {
        let mut counts = Counts::default();
        counts.add("rare");
        counts.add("rare");
        counts.add_troubles(&["bad"], 5);
        counts.add_troubles(&["harmless"], 0);
        counts.add_troubles(&["lost", "bad"], 5);
        for outcome in ["list 7", "list 12", "list 7 rows", "list", "300", "18"] {
            counts.add(outcome);
        }
        counts.known = 8;
        counts
    }

    #[test]
    fn numbers() {
        assert_eq!(counted().numbers("list "), [7, 12]);
        assert_eq!(counted().numbers(""), [18]);
    }

    #[test]
    fn floors_hold() {
        counted().check(&[("rare", 2)], 10, 10, "");
        counted().check(&[("rare", 4)], 20, 10, "");
        counted().check_troubles(["bad"].into_iter(), "");
        counted().check_known(8, 10, "");
    }

    #[test]
    #[should_panic(expected = "8 answers known of 11")]
    fn too_little_is_known() {
        counted().check_known(8, 11, "");
    }

    #[test]
    #[should_panic(expected = "rare: 2 times in 20")]
    fn a_floor_that_is_missed() {
        counted().check(&[("rare", 2)], 10, 20, "");
    }

    #[test]
    #[should_panic(expected = "harmless answered {0}")]
    fn a_trouble_that_is_none() {
        counted().check_troubles(["harmless"].into_iter(), "");
    }

    #[test]
    #[should_panic(expected = "no case of lost")]
    fn a_trouble_that_did_not_come_up() {
        counted().check_troubles(["lost"].into_iter(), "");
    }
}
