//! The withdrawal page and the withdrawal, tied to each other.

use alloc::vec::Vec;
use core::error::Error;
use core::fmt;

use crate::id::Id;
use crate::raw;
use crate::refusal::{self, Refusal};
use crate::store::Store;
use crate::stored::Stored;
use crate::time::Second;

/// A withdrawal that was asked for and not yet done: the id, and the
/// certificates that would no longer stand. [`Store::ask`] gives it, a page
/// shows it, and [`Store::withdraw`] takes it, once.
///
/// ```
/// # mod sample { include!(concat!(env!("CARGO_MANIFEST_DIR"), "/tests/sample/mod.rs")); }
/// use nattveldi::{Second, State};
///
/// let mut store = sample::store(); // a root, an authority, a ticket
/// let authority = store.slot(1)?.id;
/// let asked = store.ask(authority, Second(250))?;
/// println!("Withdraw {}? At second {} no longer stand:", asked.id(), asked.second());
/// for certificate in asked.certificates() {
///     println!("{} {:?}", certificate.id, certificate.kind);
/// }
/// assert_eq!(asked.certificates(), [store.slot(1)?, store.slot(2)?]);
///
/// store.withdraw(asked)?; // the operator confirmed what was shown
/// assert_eq!(store.slot(1)?.state, State::Withdrawn);
/// assert_eq!(store.standing(Second(250)), [0]);
/// # Ok::<(), Box<dyn std::error::Error>>(())
/// ```
///
/// It is good for one withdrawal:
///
/// ```compile_fail,E0382
/// # mod sample { include!(concat!(env!("CARGO_MANIFEST_DIR"), "/tests/sample/mod.rs")); }
/// # use nattveldi::Second;
/// # let mut store = sample::store();
/// # let authority = store.slot(1)?.id;
/// let asked = store.ask(authority, Second(250))?;
/// store.withdraw(asked)?;
/// store.withdraw(asked)?; // it was moved
/// # Ok::<(), Box<dyn std::error::Error>>(())
/// ```
#[derive(Debug, PartialEq, Eq)]
#[must_use = "nothing is withdrawn before `Store::withdraw` takes it"]
pub struct Withdrawal {
    id: Id,
    second: Second,
    certificates: Vec<Stored>,
}

impl Withdrawal {
    /// The id that is to be withdrawn.
    ///
    /// ```
    /// # mod sample { include!(concat!(env!("CARGO_MANIFEST_DIR"), "/tests/sample/mod.rs")); }
    /// let store = sample::store();
    /// let id = store.slot(1)?.id;
    /// assert_eq!(store.ask(id, nattveldi::Second(250))?.id(), id);
    /// # Ok::<(), nattveldi::Refusal>(())
    /// ```
    #[must_use]
    pub const fn id(&self) -> Id {
        self.id
    }

    /// The second for which the list was worked out.
    ///
    /// ```
    /// # mod sample { include!(concat!(env!("CARGO_MANIFEST_DIR"), "/tests/sample/mod.rs")); }
    /// use nattveldi::Second;
    ///
    /// let store = sample::store();
    /// assert_eq!(store.ask(store.slot(1)?.id, Second(250))?.second(), Second(250));
    /// # Ok::<(), nattveldi::Refusal>(())
    /// ```
    #[must_use]
    pub const fn second(&self) -> Second {
        self.second
    }

    /// The certificates that would no longer stand, by rising slots: those of
    /// [`Store::list`], the one that is to be withdrawn among them if it stands.
    ///
    /// ```
    /// # mod sample { include!(concat!(env!("CARGO_MANIFEST_DIR"), "/tests/sample/mod.rs")); }
    /// use nattveldi::Second;
    ///
    /// let store = sample::store();
    /// let ticket = store.slot(2)?;
    /// let asked = store.ask(ticket.id, Second(250))?;
    /// assert_eq!(asked.certificates(), [ticket]);
    /// # Ok::<(), nattveldi::Refusal>(())
    /// ```
    #[must_use]
    pub fn certificates(&self) -> &[Stored] {
        &self.certificates
    }

    fn ids(&self) -> Vec<Id> {
        let ids = self.certificates.iter().map(|certificate| certificate.id);
        ids.collect()
    }
}

impl Store {
    /// Asks for a withdrawal: which certificates would no longer stand at a
    /// second. Nothing is withdrawn yet.
    ///
    /// # Errors
    ///
    /// [`Refusal::Unknown`] if the id is not in the store,
    /// [`Refusal::Withdrawn`] if it is withdrawn already.
    ///
    /// ```
    /// # mod sample { include!(concat!(env!("CARGO_MANIFEST_DIR"), "/tests/sample/mod.rs")); }
    /// use nattveldi::{Refusal, Second};
    ///
    /// let store = sample::store();
    /// assert_eq!(store.ask(store.slot(0)?.id, Second(250))?.certificates().len(), 3);
    /// assert_eq!(store.ask([1; 8].into(), Second(250)), Err(Refusal::Unknown));
    /// # Ok::<(), Refusal>(())
    /// ```
    pub fn ask(&self, id: Id, second: Second) -> Result<Withdrawal, Refusal> {
        let slots = self.list(id, second)?.into_iter();
        let certificates = slots.map(|slot| self.slot(slot));
        Ok(Withdrawal {
            id,
            second,
            certificates: certificates.collect::<Result<_, _>>()?,
        })
    }

    /// Asks for a withdrawal that a page showed earlier, where nothing but the
    /// page remembers it: as [`ask`](Store::ask), if the certificates that would
    /// no longer stand are still those that were shown, in any order.
    ///
    /// # Errors
    ///
    /// [`NotWithdrawn::Refused`] as `ask` refuses, [`NotWithdrawn::Changed`] if
    /// the certificates are others than were shown.
    ///
    /// ```
    /// # mod sample { include!(concat!(env!("CARGO_MANIFEST_DIR"), "/tests/sample/mod.rs")); }
    /// use nattveldi::{NotWithdrawn, Second};
    ///
    /// let mut store = sample::store();
    /// let [authority, ticket] = [store.slot(1)?.id, store.slot(2)?.id];
    ///
    /// let too_few = store.ask_as_shown(authority, Second(250), &[authority]);
    /// let changed = NotWithdrawn::Changed { appeared: vec![ticket], gone: vec![] };
    /// assert_eq!(too_few, Err(changed));
    ///
    /// let asked = store.ask_as_shown(authority, Second(250), &[authority, ticket])?;
    /// store.withdraw(asked)?;
    /// # Ok::<(), Box<dyn std::error::Error>>(())
    /// ```
    pub fn ask_as_shown(
        &self,
        id: Id,
        second: Second,
        shown: &[Id],
    ) -> Result<Withdrawal, NotWithdrawn> {
        let asked = self.ask(id, second)?;
        let listed = asked.ids();
        let (appeared, gone) = (without(&listed, shown), without(shown, &listed));
        if appeared.is_empty() && gone.is_empty() {
            return Ok(asked);
        }
        Err(NotWithdrawn::Changed { appeared, gone })
    }

    /// Withdraws what was asked for, for good: its slot stays filled, and
    /// neither it nor what is below it stands from now on.
    ///
    /// The list is worked out again, for the same second, from this store,
    /// whichever was asked. If it has other certificates than were shown,
    /// nothing is withdrawn: ask again, and show the new list.
    ///
    /// # Errors
    ///
    /// [`NotWithdrawn::Refused`] if the id has been withdrawn since, or is not
    /// in this store; [`NotWithdrawn::Changed`] if the listed certificates have
    /// changed. The store stays as it was.
    ///
    /// ```
    /// # mod sample { include!(concat!(env!("CARGO_MANIFEST_DIR"), "/tests/sample/mod.rs")); }
    /// use nattveldi::{id, NotWithdrawn, Second, Verdict};
    ///
    /// let mut store = sample::store();
    /// let authority = store.slot(1)?.id;
    /// let asked = store.ask(authority, Second(250))?;
    ///
    /// let late = sample::ticket("late", authority);
    /// store.admit(&late, Verdict::Good)?; // it was not on the page
    /// let changed = NotWithdrawn::Changed { appeared: vec![id(&late)?], gone: vec![] };
    /// assert_eq!(store.withdraw(asked), Err(changed));
    ///
    /// let asked = store.ask(authority, Second(250))?; // now it is
    /// store.withdraw(asked)?;
    /// # Ok::<(), Box<dyn std::error::Error>>(())
    /// ```
    // By value: a page is good for one withdrawal.
    #[allow(clippy::needless_pass_by_value)]
    pub fn withdraw(&mut self, asked: Withdrawal) -> Result<(), NotWithdrawn> {
        let asked = self.ask_as_shown(asked.id, asked.second, &asked.ids())?;
        refusal::result(raw::withdraw(self.octets_mut(), asked.id.as_octets()))?;
        Ok(())
    }
}

/// The ids that are not among the others.
fn without(ids: &[Id], others: &[Id]) -> Vec<Id> {
    let ids = ids.iter().copied();
    ids.filter(|id| !others.contains(id)).collect()
}

/// Why nothing was withdrawn.
///
/// ```
/// use nattveldi::{NotWithdrawn, Refusal};
///
/// let refused = NotWithdrawn::from(Refusal::Withdrawn);
/// assert_eq!(refused.to_string(), Refusal::Withdrawn.to_string());
///
/// let (appeared, gone) = (vec![[1; 8].into()], vec![[2; 8].into(), [3; 8].into()]);
/// assert_eq!(
///     NotWithdrawn::Changed { appeared, gone }.to_string(),
///     "the list has changed since it was shown: 0101010101010101 appeared, \
///      0202020202020202 is gone, 0303030303030303 is gone"
/// );
/// ```
#[derive(Clone, Debug, PartialEq, Eq)]
pub enum NotWithdrawn {
    /// The library refused.
    Refused(Refusal),
    /// Other certificates than were shown would no longer stand.
    Changed {
        /// Those that were not shown and would no longer stand.
        appeared: Vec<Id>,
        /// Those that were shown and are no longer among them.
        gone: Vec<Id>,
    },
}

impl From<Refusal> for NotWithdrawn {
    fn from(refusal: Refusal) -> NotWithdrawn {
        NotWithdrawn::Refused(refusal)
    }
}

impl fmt::Display for NotWithdrawn {
    fn fmt(&self, f: &mut fmt::Formatter<'_>) -> fmt::Result {
        let (appeared, gone) = match self {
            NotWithdrawn::Refused(refusal) => return refusal.fmt(f),
            NotWithdrawn::Changed { appeared, gone } => (appeared, gone),
        };
        f.write_str("the list has changed since it was shown")?;
        let appeared = appeared.iter().map(|id| (id, "appeared"));
        let gone = gone.iter().map(|id| (id, "is gone"));
        for (index, (id, change)) in appeared.chain(gone).enumerate() {
            let before = if index == 0 { ": " } else { ", " };
            write!(f, "{before}{id} {change}")?;
        }
        Ok(())
    }
}

impl Error for NotWithdrawn {}
