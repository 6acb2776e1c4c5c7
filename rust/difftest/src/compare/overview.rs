//! The sides held against each other on what a store holds and what stands.

use super::withdrawal::lists;
use super::{numbers, octets, same};
use crate::lists::Listed;
use crate::overview::lookups::{Found, Lookup};
use crate::overview::standings::Standing;
use crate::sides::Side;

/// Asks all sides what a slot holds, with a lent buffer. Answers what they agree
/// on, or says where they differ.
pub fn stored(lookup: &Lookup, lent: &[u8]) -> Result<Found, String> {
    let answer = lookup.ask(Side::Reference, lent);
    for side in Side::PROVED {
        same(side, "stored", finds(&lookup.ask(side, lent), &answer))?;
    }
    Ok(answer)
}

/// Asks all sides what stands.
pub fn standing(standing: &Standing) -> Result<Listed, String> {
    let answer = standing.ask(Side::Reference);
    for side in Side::PROVED {
        same(side, "standing", lists(&standing.ask(side), &answer))?;
    }
    Ok(answer)
}

/// Where two answers to `stored` differ, if they do.
pub fn finds(left: &Found, right: &Found) -> Option<String> {
    numbers(left.number, right.number).or_else(|| octets("buffer", &left.buffer, &right.buffer))
}

#[cfg(test)]
mod tests {
    use super::*;

    #[test]
    fn differing_answers_are_reported() {
        let one = Found {
            number: 0,
            buffer: vec![7; 250],
        };
        assert_eq!(finds(&one, &one), None);
        let refused = Found {
            number: 7,
            ..one.clone()
        };
        assert_eq!(finds(&one, &refused), Some("number 0 against 7".into()));
        for at in 0..250 {
            let mut other = one.clone();
            other.buffer[at] = 6;
            let said = format!("buffer, octet {at}: 07 against 06");
            assert_eq!(finds(&one, &other), Some(said));
        }
    }
}
