//! How often each operation gave each answer.

use std::collections::BTreeMap;

use crate::requests::Request;

use super::call::{Call, Given};
use crate::lines;

/// The operations, and the numbers that the C header has for each. A page says
/// its number in its text; one whose buffer is too short counts as a bad call.
const ANSWERS: [(&str, &[u8]); 11] = [
    ("read", &[0, 1, 3, 4, 5, 6]),
    ("id", &[0, 1, 3, 4, 5, 6]),
    ("install", &[0, 1, 2, 3, 4, 5, 6, 10, 15, 16, 17]),
    (
        "admit",
        &[0, 1, 2, 3, 4, 5, 6, 7, 8, 10, 11, 12, 13, 15, 16, 17],
    ),
    ("list", &[0, 1, 2, 7, 8]),
    ("withdraw", &[0, 1, 2, 7, 8]),
    ("stored", &[0, 1, 2, 7]),
    ("standing", &[0, 1, 2]),
    (
        "prepare",
        &[0, 1, 2, 3, 4, 5, 6, 7, 8, 9, 10, 11, 12, 13, 14, 18],
    ),
    (
        "decide",
        &[0, 1, 2, 3, 4, 5, 6, 7, 8, 9, 10, 11, 12, 13, 14, 15, 18],
    ),
    ("page", &[0, 1, 2, 7, 8]),
];
const MOST_NUMBER: u8 = 18;
const REFUSED: &str = "refused ";

#[derive(Default)]
pub struct Table {
    counts: BTreeMap<(&'static str, u8), u64>,
}

/// The number that an answer says.
pub fn number(call: &Call, given: &Given) -> u8 {
    let number = match &call.request {
        Request::List(_) | Request::Standing(_) => -given.answer.min(0),
        Request::Page { .. } if given.answer == 0 => 1,
        Request::Page { .. } => {
            let text = String::from_utf8_lossy(&given.lent);
            let refused = text.strip_prefix(REFUSED);
            let digits = refused.and_then(|rest| rest.split('\n').next());
            digits.map_or(0, |digits| digits.parse().expect("a refusal's number"))
        }
        _ => given.answer,
    };
    u8::try_from(number).expect("a number of one octet")
}

impl Table {
    /// Counts an answer. Says so if the header does not have it.
    pub fn add(&mut self, call: &Call, given: &Given) -> Result<u8, String> {
        let operation = lines::operation(&call.request);
        let number = number(call, given);
        *self.counts.entry((operation, number)).or_default() += 1;
        let known = ANSWERS.iter().find(|(name, _)| *name == operation);
        match known.is_some_and(|(_, numbers)| numbers.contains(&number)) {
            true => Ok(number),
            false => Err(format!("the C header has no answer {number}")),
        }
    }

    fn count(&self, operation: &'static str, number: u8) -> u64 {
        self.counts.get(&(operation, number)).copied().unwrap_or(0)
    }

    /// A row for each operation, a column for each number; a dash where the
    /// operation never gives it.
    pub fn markdown(&self) -> String {
        let numbers = || 0..=MOST_NUMBER;
        let head: String = numbers().map(|number| format!(" {number} |")).collect();
        let rule = "---:|".repeat(numbers().count() + 1);
        let mut text = format!("| operation | requests |{head}\n|---|{rule}\n");
        for (operation, possible) in ANSWERS {
            let total: u64 = numbers().map(|number| self.count(operation, number)).sum();
            text += &format!("| {operation} | {total} |");
            for number in numbers() {
                let count = self.count(operation, number).to_string();
                let is_possible = possible.contains(&number);
                text += &format!(" {} |", if is_possible { &count } else { "-" });
            }
            text += "\n";
        }
        text
    }

    /// The answers that an operation can give and did not.
    pub fn unseen(&self) -> Vec<String> {
        let pairs = ANSWERS.iter().flat_map(|(operation, numbers)| {
            let pair = move |number: &u8| (*operation, *number);
            numbers.iter().map(pair)
        });
        pairs
            .filter(|(operation, number)| self.count(operation, *number) == 0)
            .map(|(operation, number)| format!("{operation} {number}"))
            .collect()
    }
}

#[cfg(test)]
mod tests {
    use super::*;
    use crate::requests;

    fn call(line: &str) -> Call {
        Call {
            request: requests::parse(line).expect("a request"),
            lent: Vec::new(),
        }
    }

    fn given(answer: i64, lent: &[u8]) -> Given {
        Given {
            answer,
            store: Vec::new(),
            lent: lent.to_vec(),
        }
    }

    #[test]
    fn numbers() {
        assert_eq!(number(&call("read -"), &given(6, b"")), 6);
        assert_eq!(number(&call("list - - 0 -"), &given(64, b"")), 0);
        assert_eq!(number(&call("list - - 0 -"), &given(-8, b"")), 8);
        assert_eq!(number(&call("standing - 0 -"), &given(64, b"")), 0);
        assert_eq!(number(&call("standing - 0 -"), &given(-2, b"")), 2);
        assert_eq!(number(&call("stored - 0"), &given(7, b"")), 7);
        assert_eq!(number(&call("page -"), &given(0, b"")), 1);
        assert_eq!(number(&call("page -"), &given(10, b"refused 7\nx")), 7);
        assert_eq!(number(&call("page -"), &given(9, b"withdraw ")), 0);
    }

    #[test]
    fn counts() {
        let mut table = Table::default();
        assert_eq!(table.add(&call("id -"), &given(4, b"")), Ok(4));
        assert_eq!(table.add(&call("id -"), &given(4, b"")), Ok(4));
        let said = "the C header has no answer 2";
        assert_eq!(table.add(&call("id -"), &given(2, b"")), Err(said.into()));
        let row = "\n| id | 3 | 0 | 0 | - | 0 | 2 | 0 | 0 | - |";
        assert!(table.markdown().contains(row), "{}", table.markdown());
        let unseen = table.unseen();
        assert!(unseen.contains(&"id 0".into()) && !unseen.contains(&"id 4".into()));
        assert_eq!(
            unseen.len(),
            6 + 6 + 11 + 16 + 5 + 5 + 4 + 3 + 16 + 17 + 5 - 1
        );
    }
}
