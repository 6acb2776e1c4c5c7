//! List and withdraw, test by test, and which certificates fall.

use nattveldi::Refusal::Withdrawn;

use super::issue::stored;
use super::library::{slots, store_is_valid, store_length};
use super::steps::Steps;
use super::walk::{walk, Circumstances};
use super::Explanation;
use crate::proved;
use crate::store::{Record, Slots, WITHDRAWN};
use crate::verdict;

/// What a withdrawal would do to the certificates of a store.
pub struct Falling {
    pub explanation: Explanation,
    /// The slots that stand before and not after.
    pub slots: Vec<usize>,
}

pub fn withdraw(store: &[u8], id: &[u8; 8]) -> Explanation {
    Explanation::of(|steps| tests(steps, store, id).map(drop))
}

pub fn list(store: &[u8], id: &[u8; 8], second: u32) -> Falling {
    let mut fallen = Vec::new();
    let explanation = Explanation::of(|steps| {
        let slots = tests(steps, store, id)?;
        let library = Library {
            standing: proved::standing(store, second).unwrap_or_default(),
            listed: proved::list(store, id, second).unwrap_or_default(),
        };
        fallen = falling(steps, &slots, &library, id, second);
        Ok(())
    });
    Falling {
        explanation,
        slots: fallen,
    }
}

/// The slots of the store, if it is valid and the id can be withdrawn.
fn tests(steps: &mut Steps, store: &[u8], id: &[u8; 8]) -> Result<Slots, u8> {
    store_length(steps, store)?;
    store_is_valid(steps, store)?;
    let slots = slots(store)?;
    let record = stored(steps, &slots, "the id", id)?;
    steps.note(format!("the certificate is {}", record.title()));
    let held = record.state != WITHDRAWN;
    steps.test(Withdrawn, held, "it is not withdrawn yet")?;
    Ok(slots)
}

/// The slots that the library gives.
struct Library {
    standing: Vec<usize>,
    listed: Vec<usize>,
}

/// What stands and what falls is the library's; why is this tool's own walk,
/// and so are the slots that are given back.
fn falling(
    steps: &mut Steps,
    slots: &Slots,
    library: &Library,
    id: &[u8; 8],
    second: u32,
) -> Vec<usize> {
    let mut fallen = Vec::new();
    for (slot, record) in slots.iter() {
        let before = standing(slots, record, second, None);
        let after = standing(slots, record, second, Some(*id));
        if before.is_ok() && after.is_err() {
            fallen.push(slot);
        }
        let library = Fate {
            stands: library.standing.contains(&slot),
            falls: library.listed.contains(&slot),
        };
        let words = library.words(before, after);
        steps.note(format!("slot {slot}, {}: {words}", record.title()));
    }
    fallen
}

/// What the library says of a certificate.
#[derive(Clone, Copy, PartialEq)]
struct Fate {
    stands: bool,
    falls: bool,
}

impl Fate {
    fn words(self, before: Result<(), String>, after: Result<(), String>) -> String {
        let own = Fate {
            stands: before.is_ok(),
            falls: before.is_ok() && after.is_err(),
        };
        let says = match (self.stands, self.falls) {
            (false, _) => "does not stand even now",
            (true, false) => "stands, and would stand after the withdrawal",
            (true, true) => "stands, and FALLS with the withdrawal",
        };
        if own != self {
            return format!("{says}, says the library; DOES NOT FIT this tool's own walk");
        }
        match before.and(after) {
            Ok(()) => says.to_string(),
            Err(why) => format!("{says}: {why}"),
        }
    }
}

/// Why a certificate does not stand.
fn standing(
    slots: &Slots,
    record: &Record,
    second: u32,
    withdrawn: Option<[u8; 8]>,
) -> Result<(), String> {
    let circumstances = Circumstances {
        second: second.into(),
        position: None,
        withdrawn,
    };
    let mut steps = Steps::default();
    walk(&mut steps, slots, record, &circumstances).map_err(|number| {
        let (certificate, test) = steps.last().unwrap_or_default();
        let name = verdict::short(number);
        format!("{name} at {certificate}; what does not hold: {test}")
    })
}

#[cfg(test)]
mod tests {
    use super::*;

    fn said(stands: bool, falls: bool, before: bool, after: bool) -> String {
        let own = |stands: bool| stands.then_some(()).ok_or("why".to_string());
        Fate { stands, falls }.words(own(before), own(after))
    }

    /// The words are the library's, whatever the own walk finds.
    #[test]
    fn the_library_says_who_stands() {
        let falls = "stands, and FALLS with the withdrawal";
        assert_eq!(said(true, true, true, false), format!("{falls}: why"));
        assert_eq!(
            said(false, false, false, false),
            "does not stand even now: why"
        );
        for (before, after) in [(true, true), (false, false)] {
            let words = said(true, true, before, after);
            assert!(
                words.starts_with(falls) && words.contains("DOES NOT FIT"),
                "{words}"
            );
        }
    }
}
