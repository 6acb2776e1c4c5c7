//! The sides held against each other on a withdrawal: list, store, page.

use super::{changes, numbers, octets, same};
use crate::changes::Changed;
use crate::lists::{List, Listed};
use crate::pages::{self, Paged};
use crate::sides::Side;
use crate::withdrawals::Withdrawal;

/// Asks all sides for a list. Answers what they agree on, or says where they
/// differ.
pub fn list(list: &List) -> Result<Listed, String> {
    let answer = list.ask(Side::Reference);
    for side in Side::PROVED {
        same(side, "list", lists(&list.ask(side), &answer))?;
    }
    Ok(answer)
}

/// Asks all sides to withdraw.
pub fn withdraw(withdrawal: &Withdrawal) -> Result<Changed, String> {
    let answer = withdrawal.ask(Side::Reference);
    for side in Side::PROVED {
        same(side, "withdraw", changes(&withdrawal.ask(side), &answer))?;
    }
    Ok(answer)
}

/// Asks all sides for a page.
pub fn page(input: &[u8]) -> Result<Paged, String> {
    let answer = pages::ask(Side::Reference, input);
    for side in Side::PROVED {
        same(side, "page", texts(&pages::ask(side, input), &answer))?;
    }
    Ok(answer)
}

/// Where two answers to `list` differ, if they do.
pub fn lists(left: &Listed, right: &Listed) -> Option<String> {
    numbers(left.number, right.number)
        .or_else(|| (left.n != right.n).then(|| format!("n {} against {}", left.n, right.n)))
        .or_else(|| octets("list", &left.list, &right.list))
}

/// Where two pages differ, if they do.
pub fn texts(left: &Paged, right: &Paged) -> Option<String> {
    octets("text", &left.buffer, &right.buffer).or_else(|| {
        (left.length != right.length)
            .then(|| format!("length {} against {}", left.length, right.length))
    })
}

#[cfg(test)]
mod tests {
    use super::*;

    #[test]
    fn differing_lists_are_reported() {
        let one = Listed {
            number: 0,
            n: 2,
            list: vec![7; 70],
        };
        assert_eq!(lists(&one, &one), None);
        let refused = Listed {
            number: 8,
            ..one.clone()
        };
        assert_eq!(lists(&one, &refused), Some("number 0 against 8".into()));
        let more = Listed {
            n: 3,
            ..one.clone()
        };
        assert_eq!(lists(&one, &more), Some("n 2 against 3".into()));
        for at in 0..70 {
            let mut other = one.clone();
            other.list[at] = 6;
            let said = format!("list, octet {at}: 07 against 06");
            assert_eq!(lists(&one, &other), Some(said));
        }
    }

    #[test]
    fn differing_pages_are_reported() {
        let one = Paged::of(b"refused 1\n");
        assert_eq!(texts(&one, &one), None);
        let longer = Paged {
            length: 11,
            ..one.clone()
        };
        assert_eq!(texts(&one, &longer), Some("length 10 against 11".into()));
        let other = Paged::of(b"refused 2\n");
        let said = "text, octet 8: 31 against 32";
        assert_eq!(texts(&one, &other), Some(said.into()));
    }
}
