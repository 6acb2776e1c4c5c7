//! The library's verdicts, and whether this tool's own reading fits them.

use crate::json::Object;
use crate::proved;
use nattveldi::raw::Situation;
use nattveldi::Refusal;

/// Stands in every output.
pub const NOTE: &str = "verdicts: the proved library; layout and explanation: this tool's own \
                        reading, for display only";

/// The name of the number 0, and what it means (docs/ANSWERS.md).
pub const ACCEPTED: &str = "accepted";
pub const PASSED: &str = "every test passed";

/// The chip's octet on a good signature.
pub const GOOD: u8 = 1;

/// The library's number on a certificate.
pub fn certificate(octets: &[u8]) -> u8 {
    number(&proved::read(octets))
}

/// The library's number on the reading of a message. Prepare reads before it
/// looks at times and signers, so with an empty store 3 to 6 come from the
/// reading, and any other answer says that the message reads.
pub fn message(octets: &[u8]) -> u8 {
    let answer = proved::prepare(&proved::empty_store(), octets, &Situation::default());
    match number(&answer) {
        refused @ 3..=6 => refused,
        _ => 0,
    }
}

/// The library's number on a store. What stands, at any second, is refused for
/// the store alone.
pub fn store(octets: &[u8]) -> u8 {
    number(&proved::standing(octets, 0))
}

/// 0 if the library accepts, else the number by which it refuses.
pub fn number<T>(answer: &Result<T, Refusal>) -> u8 {
    answer.as_ref().err().map_or(0, |refusal| refusal.number())
}

/// `accepted`, or the refusal in words.
pub fn sentence(number: u8) -> String {
    match Refusal::from_number(number) {
        None if number == 0 => ACCEPTED.to_string(),
        None => format!("refused {number}"),
        Some(refusal) => format!("refused {number}, {refusal}"),
    }
}

/// The number, its name and what it means; `passed` says what 0 means.
pub fn object(number: u8, passed: &'static str) -> Object {
    let refusal = Refusal::from_number(number);
    Object::new()
        .with("number", number)
        .with("name", refusal.map_or(ACCEPTED, Refusal::name))
        .with("accepted", number == 0)
        .with("meaning", refusal.map_or(passed, Refusal::meaning))
}

/// The number at which this tool arrives by itself, and whether it fits.
pub fn own(library: u8, own: u8) -> Object {
    let object = Object::new().with("number", own);
    object.with("fits", own == library)
}

/// The number and its name.
pub fn short(number: u8) -> String {
    match Refusal::from_number(number) {
        Some(refusal) => format!("{number} {}", refusal.name()),
        None => format!("{number}"),
    }
}

/// Why what this tool found by itself is not to be relied on.
pub fn unfit(what: &str, library: u8, own: u8) -> Option<String> {
    (library != own).then(|| {
        format!(
            "DOES NOT FIT: {what} arrives at {own}, the library at {library}. \
             The library's number counts; do not rely on {what}."
        )
    })
}

#[cfg(test)]
mod tests {
    use super::*;

    #[test]
    fn sentences() {
        assert_eq!(sentence(0), "accepted");
        let cut = "refused 4, cut: a field or vector passes the end of what holds it";
        assert_eq!(sentence(4), cut);
        for refusal in Refusal::ALL {
            let (number, name, meaning) = (refusal.number(), refusal.name(), refusal.meaning());
            let words = format!("refused {number}, {name}: {meaning}");
            assert_eq!(sentence(number), words);
        }
        assert_eq!(short(12), "12 outside period");
    }

    /// The library's number is named as the one that counts.
    #[test]
    fn a_difference_is_said() {
        assert_eq!(unfit("the explanation", 5, 5), None);
        let said = unfit("the explanation", 5, 6).expect("a difference");
        assert!(said.starts_with("DOES NOT FIT: the explanation arrives at 6, the library at 5."));
        assert!(said.contains("The library's number counts"));
    }
}
