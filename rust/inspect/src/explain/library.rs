//! What the library answers: whether a store is valid, what its slots hold, and
//! whether octets read. The place and reason of a fault are this tool's own reading.

use nattveldi::Refusal;

use super::steps::Steps;
use crate::reading::Reading;
use crate::store::{first_broken, layout, Broken, Slots};
use crate::verdict;

const STORE_LENGTH: usize = layout::SLOTS * layout::SLOT_LENGTH;

pub fn store_length(steps: &mut Steps, store: &[u8]) -> Result<(), u8> {
    let text = format!("the store has {STORE_LENGTH} octets: {}", store.len());
    steps.test(Refusal::BadCall, store.len() == STORE_LENGTH, text)
}

pub fn store_is_valid(steps: &mut Steps, store: &[u8]) -> Result<(), u8> {
    let library = verdict::store(store);
    let broken = first_broken(store);
    let own = broken.as_ref().map_or(0, Broken::number);
    let rule = match broken {
        _ if own != library => does_not_fit(library, own),
        Some(broken) => format!("; octet {}: {}", broken.offset(), broken.rule),
        None => String::new(),
    };
    let said = said(library, "it is not");
    let text = format!("the store is valid: {said}{rule}");
    let tested = steps.test(Refusal::BadStore, library == 0, text);
    if_fits(tested, library, own)
}

/// What the slots of a valid store hold.
pub fn slots(store: &[u8]) -> Result<Slots, u8> {
    Slots::of(store).map_err(|refusal| refusal.number())
}

/// `what` reads, by the library's number.
pub fn reads<T>(steps: &mut Steps, what: &str, library: u8, own: &Reading<T>) -> Result<(), u8> {
    let fault = match &own.outcome {
        _ if own.number() != library => does_not_fit(library, own.number()),
        Err(fault) => format!("; octet {}: {}", fault.offset, fault.reason),
        Ok(_) => String::new(),
    };
    let said = said(library, "it does not");
    let text = format!("the {what} reads: {said}{fault}");
    let tested = steps.reading(library, text);
    if_fits(tested, library, own.number())
}

/// The library's word on what must hold.
fn said(library: u8, if_refused: &str) -> String {
    match library {
        0 => "so says the library".to_string(),
        _ => format!("the library says that {if_refused}"),
    }
}

/// An explanation whose own reading does not fit ends there with its own
/// number, so that it cannot arrive at the library's by the library's answer.
fn if_fits(tested: Result<(), u8>, library: u8, own: u8) -> Result<(), u8> {
    if own == library {
        tested
    } else {
        Err(own)
    }
}

fn does_not_fit(library: u8, own: u8) -> String {
    let unfit = verdict::unfit("this tool's own reading", library, own);
    format!("; {}", unfit.unwrap_or_default())
}

#[cfg(test)]
mod tests {
    use super::*;
    use crate::explain::Line;
    use crate::reading;

    fn text(library: u8) -> String {
        let mut steps = Steps::default();
        let own = reading::certificate(&[2, 0, 3]);
        let answer = reads(&mut steps, "certificate", library, &own);
        assert_eq!(answer, Err(6)); // what this reading arrives at
        match steps.lines.pop() {
            Some(Line::Test { text, .. }) => text,
            line => panic!("no test: {line:?}"),
        }
    }

    /// A place is given only where both agree, and an explanation that goes on
    /// from a reading that does not fit arrives at another number.
    #[test]
    fn the_library_answers() {
        let refused = "the certificate reads: the library says that it does not";
        assert!(text(6).starts_with(&format!("{refused}; octet 2: ")));
        for library in [0, 5] {
            assert!(text(library).contains("DOES NOT FIT"));
            assert!(!text(library).contains("octet 2"));
        }
    }
}
