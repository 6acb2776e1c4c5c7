//! A store of certificates, and the operations on it.

use alloc::boxed::Box;
use alloc::vec;
use alloc::vec::Vec;
use core::fmt;
use core::iter::FusedIterator;
use core::ops::Range;

use crate::decision::Decision;
use crate::id::Id;
use crate::question::Questions;
use crate::raw::{self, DECISION_LENGTH, LIST_LENGTH, QUESTIONS_LENGTH};
use crate::raw::{SLOTS, STORED_LENGTH, STORE_LENGTH};
use crate::refusal::{self, Refusal};
use crate::situation::Situation;
use crate::stored::Stored;
use crate::time::Second;
use crate::verdict::{Verdict, Verdicts};

/// A store of certificates: 64 slots, empty or filled for good.
///
/// A `Store` is always valid. It starts empty or from octets that the library
/// accepts, and nothing but the proved operations changes it, which keep it
/// valid and, where they refuse, as it was. So no method refuses with
/// [`Refusal::BadStore`] but [`from_octets`](Store::from_octets).
///
/// ```
/// # mod sample { include!(concat!(env!("CARGO_MANIFEST_DIR"), "/tests/sample/mod.rs")); }
/// use nattveldi::{id, Second, Store, Verdict};
///
/// let root = sample::root("R");
/// let ticket = sample::ticket("T", id(&root)?);
/// let mut store = Store::new();
/// store.install(&root, Verdict::Good)?;
/// store.admit(&ticket, Verdict::Good)?;
///
/// for (slot, certificate) in &store {
///     println!("{slot}: {} {:?}", certificate.id, certificate.kind);
/// }
/// assert_eq!(store.standing(Second(250)), [0, 1]);
///
/// let saved = store.as_octets().to_vec();
/// assert_eq!(Store::from_octets(&saved)?, store);
/// # Ok::<(), nattveldi::Refusal>(())
/// ```
#[derive(Clone, PartialEq, Eq)]
pub struct Store {
    octets: Box<[u8; STORE_LENGTH]>,
}

impl Store {
    /// A store that holds nothing.
    ///
    /// ```
    /// let store = nattveldi::Store::new();
    /// assert_eq!(store.iter().count(), 0);
    /// assert_eq!(store.as_octets(), &[0; nattveldi::STORE_LENGTH]);
    /// ```
    #[must_use]
    pub fn new() -> Store {
        // Not by way of the stack, which may be small.
        let octets = vec![0; STORE_LENGTH].into_boxed_slice();
        let octets = octets.try_into();
        Store {
            octets: octets.unwrap_or_else(|_| unreachable!("it has as many octets")),
        }
    }

    /// The store of these octets, which [`as_octets`](Store::as_octets) gave.
    ///
    /// # Errors
    ///
    /// [`Refusal::BadCall`] if they are not 13,568, [`Refusal::BadStore`] if
    /// they break a rule of stores.
    ///
    /// ```
    /// use nattveldi::{Refusal, Store, STORE_LENGTH};
    ///
    /// let mut octets = [0; STORE_LENGTH];
    /// assert_eq!(Store::from_octets(&octets), Ok(Store::new()));
    /// assert_eq!(Store::from_octets(&octets[1..]), Err(Refusal::BadCall));
    /// octets[0] = 1; // an empty slot is all zero
    /// assert_eq!(Store::from_octets(&octets), Err(Refusal::BadStore));
    /// ```
    pub fn from_octets(octets: &[u8]) -> Result<Store, Refusal> {
        // Whatever the second, this is refused for the store alone.
        refusal::count(raw::standing(octets, 0, &mut [0; LIST_LENGTH]))?;
        let octets = Box::<[u8]>::from(octets).try_into();
        let octets = octets.map_err(|_| Refusal::BadCall)?;
        Ok(Store { octets })
    }

    /// The octets of the store, for a file or for [`raw`].
    ///
    /// ```
    /// use nattveldi::Store;
    ///
    /// let store = Store::new();
    /// assert_eq!(Store::from_octets(store.as_octets())?, store);
    /// # Ok::<(), nattveldi::Refusal>(())
    /// ```
    #[must_use]
    pub const fn as_octets(&self) -> &[u8; STORE_LENGTH] {
        &self.octets
    }

    /// The octets, for the operations of other modules that change the store.
    pub(crate) fn octets_mut(&mut self) -> &mut [u8] {
        &mut self.octets[..]
    }

    /// What a slot holds, the slots counted from 0.
    ///
    /// # Errors
    ///
    /// [`Refusal::Unknown`] for an empty slot, [`Refusal::BadCall`] for one
    /// above 63.
    ///
    /// ```
    /// # mod sample { include!(concat!(env!("CARGO_MANIFEST_DIR"), "/tests/sample/mod.rs")); }
    /// use nattveldi::{Kind, Refusal, SLOTS};
    ///
    /// let store = sample::store();
    /// assert_eq!(store.slot(0)?.kind, Kind::Root);
    /// assert_eq!(store.slot(3), Err(Refusal::Unknown));
    /// assert_eq!(store.slot(SLOTS), Err(Refusal::BadCall));
    /// # Ok::<(), Refusal>(())
    /// ```
    pub fn slot(&self, slot: usize) -> Result<Stored, Refusal> {
        let mut stored = [0; STORED_LENGTH];
        refusal::result(raw::stored(self.as_octets(), slot, &mut stored))?;
        Ok(Stored::from_octets(&stored))
    }

    /// The certificates that the store holds, held or withdrawn, each with its
    /// slot, ascending.
    ///
    /// ```
    /// # mod sample { include!(concat!(env!("CARGO_MANIFEST_DIR"), "/tests/sample/mod.rs")); }
    /// let store = sample::store();
    /// let names = store.iter().map(|(_, certificate)| certificate.name);
    /// assert_eq!(names.collect::<Vec<_>>().concat(), b"RAT");
    /// ```
    pub fn iter(&self) -> Certificates<'_> {
        Certificates {
            store: self,
            slots: 0..SLOTS,
        }
    }

    /// The certificate with an id, held or withdrawn, and its slot.
    ///
    /// ```
    /// # mod sample { include!(concat!(env!("CARGO_MANIFEST_DIR"), "/tests/sample/mod.rs")); }
    /// let store = sample::store();
    /// let root = store.slot(0)?;
    /// assert_eq!(store.find(root.id), Some((0, root)));
    /// assert_eq!(store.find([1; 8].into()), None);
    /// # Ok::<(), nattveldi::Refusal>(())
    /// ```
    #[must_use]
    pub fn find(&self, id: Id) -> Option<(usize, Stored)> {
        self.iter().find(|(_, certificate)| certificate.id == id)
    }

    /// Installs a root in the lowest empty slot. The verdict is the chip's on
    /// the root's signature.
    ///
    /// # Errors
    ///
    /// Why the root is refused. The store stays as it was.
    ///
    /// ```
    /// # mod sample { include!(concat!(env!("CARGO_MANIFEST_DIR"), "/tests/sample/mod.rs")); }
    /// use nattveldi::{id, Refusal, Store, Verdict};
    ///
    /// let (mut store, root) = (Store::new(), sample::root("R"));
    /// assert_eq!(store.install(&root, Verdict::Bad), Err(Refusal::Signature));
    /// assert_eq!(store, Store::new());
    /// store.install(&root, Verdict::Good)?;
    /// assert_eq!(store.slot(0)?.id, id(&root)?);
    /// assert_eq!(store.install(&root, Verdict::Good), Err(Refusal::AlreadyHeld));
    /// # Ok::<(), Refusal>(())
    /// ```
    pub fn install(&mut self, certificate: &[u8], verdict: Verdict) -> Result<(), Refusal> {
        refusal::result(raw::install(
            self.octets_mut(),
            certificate,
            verdict.octet(),
        ))
    }

    /// Admits a ticket or an authority below an issuer that the store holds, in
    /// the lowest empty slot. The verdict is the chip's on the certificate's
    /// signature.
    ///
    /// # Errors
    ///
    /// Why the certificate is refused. The store stays as it was.
    ///
    /// ```
    /// # mod sample { include!(concat!(env!("CARGO_MANIFEST_DIR"), "/tests/sample/mod.rs")); }
    /// use nattveldi::{id, Refusal, Store, Verdict};
    ///
    /// let (mut store, root) = (Store::new(), sample::root("R"));
    /// let ticket = sample::ticket("T", id(&root)?);
    /// assert_eq!(store.admit(&ticket, Verdict::Good), Err(Refusal::Unknown));
    /// store.install(&root, Verdict::Good)?;
    /// store.admit(&ticket, Verdict::Good)?;
    /// assert_eq!(store.slot(1)?.id, id(&ticket)?);
    ///
    /// let longer = sample::ticket_at("T", id(&root)?, 0..1_001);
    /// assert_eq!(store.admit(&longer, Verdict::Good), Err(Refusal::OutsidePeriod));
    /// let below = sample::ticket("T", id(&ticket)?);
    /// assert_eq!(store.admit(&below, Verdict::Good), Err(Refusal::WrongKind));
    /// # Ok::<(), Refusal>(())
    /// ```
    pub fn admit(&mut self, certificate: &[u8], verdict: Verdict) -> Result<(), Refusal> {
        refusal::result(raw::admit(self.octets_mut(), certificate, verdict.octet()))
    }

    /// The slots of all certificates that stand at a second, ascending. A
    /// certificate stands if its chain of issuers reaches a root within eight
    /// certificates, each of them held, in its period and issued within the
    /// limits of the next.
    ///
    /// # Panics
    ///
    /// With another archive than these bindings were written for.
    ///
    /// ```
    /// # mod sample { include!(concat!(env!("CARGO_MANIFEST_DIR"), "/tests/sample/mod.rs")); }
    /// use nattveldi::{id, Second, Store, Verdict};
    ///
    /// let (mut store, root) = (Store::new(), sample::root("R"));
    /// store.install(&root, Verdict::Good)?;
    /// store.admit(&sample::ticket_at("T", id(&root)?, 0..50), Verdict::Good)?;
    /// assert_eq!(store.standing(Second(49)), [0, 1]);
    /// assert_eq!(store.standing(Second(50)), [0]); // the ticket's period is over
    /// # Ok::<(), nattveldi::Refusal>(())
    /// ```
    #[must_use]
    pub fn standing(&self, second: Second) -> Vec<usize> {
        let mut list = [0; LIST_LENGTH];
        let count = refusal::count(raw::standing(self.as_octets(), second.0, &mut list));
        slots(&list, count.expect("a store is valid"))
    }

    /// The slots of all certificates that stand at a second as the store is, and
    /// would not if the one with the id were withdrawn, ascending. That one is
    /// among them, unless it does not stand itself; then there are none.
    ///
    /// # Errors
    ///
    /// [`Refusal::Unknown`] if the id is not in the store,
    /// [`Refusal::Withdrawn`] if it is withdrawn.
    ///
    /// ```
    /// # mod sample { include!(concat!(env!("CARGO_MANIFEST_DIR"), "/tests/sample/mod.rs")); }
    /// use nattveldi::{Refusal, Second};
    ///
    /// let store = sample::store(); // a root, an authority, a ticket
    /// let authority = store.slot(1)?.id;
    /// assert_eq!(store.list(authority, Second(250))?, [1, 2]);
    /// assert_eq!(store.list(authority, Second(1_000))?, []); // nothing stands then
    /// assert_eq!(store.list([1; 8].into(), Second(250)), Err(Refusal::Unknown));
    /// # Ok::<(), Refusal>(())
    /// ```
    pub fn list(&self, id: Id, second: Second) -> Result<Vec<usize>, Refusal> {
        let mut list = [0; LIST_LENGTH];
        let answer = raw::list(self.as_octets(), id.as_octets(), second.0, &mut list);
        Ok(slots(&list, refusal::count(answer)?))
    }

    /// Works out what the chip is to be asked about a message.
    ///
    /// # Errors
    ///
    /// Why [`decide`](Store::decide) would refuse the message with good
    /// verdicts.
    ///
    /// ```
    /// # mod sample { include!(concat!(env!("CARGO_MANIFEST_DIR"), "/tests/sample/mod.rs")); }
    /// use nattveldi::{Microseconds, Part, Refusal, Situation};
    ///
    /// let (store, message, situation) = (sample::store(), sample::message(), sample::situation());
    /// let questions = store.prepare(&message, &situation)?;
    /// let signed = Part { start: 0, length: message.len() - 66 };
    /// assert_eq!(questions.message().signed, signed);
    ///
    /// let late = Situation::new(Microseconds(252_000_001), situation.position());
    /// assert_eq!(store.prepare(&message, &late), Err(Refusal::OutOfDate));
    /// # Ok::<(), Refusal>(())
    /// ```
    pub fn prepare(&self, message: &[u8], situation: &Situation) -> Result<Questions, Refusal> {
        let mut questions = [0; QUESTIONS_LENGTH];
        refusal::result(raw::prepare(
            self.as_octets(),
            message,
            &(*situation).into(),
            &mut questions,
        ))?;
        Ok(Questions::from_octets(&questions))
    }

    /// Decides a message: tests everything that [`prepare`](Store::prepare)
    /// tests, and then the verdicts on its questions.
    ///
    /// Nothing tells of which message verdicts are: give the message and the
    /// situation that [`prepare`](Store::prepare) got, and the same store.
    ///
    /// # Errors
    ///
    /// Why the message is refused.
    ///
    /// ```
    /// # mod sample { include!(concat!(env!("CARGO_MANIFEST_DIR"), "/tests/sample/mod.rs")); }
    /// use nattveldi::{Microseconds, Refusal, Verdict, Verdicts};
    ///
    /// let (store, message, situation) = (sample::store(), sample::message(), sample::situation());
    /// let questions = store.prepare(&message, &situation)?;
    /// let verdicts = questions.ask(|_| Verdict::Good); // the chip's answer to each
    /// let decision = store.decide(&message, &situation, &verdicts)?;
    /// assert_eq!(decision.payload.of(&message), b"hello");
    /// assert_eq!(decision.signer, store.slot(2)?.id);
    /// assert_eq!(decision.permission, 36);
    /// assert_eq!(decision.generation_time, Microseconds(250_000_000));
    ///
    /// let bad = Verdicts::on_message(Verdict::Bad);
    /// assert_eq!(store.decide(&message, &situation, &bad), Err(Refusal::Signature));
    /// # Ok::<(), Refusal>(())
    /// ```
    pub fn decide(
        &self,
        message: &[u8],
        situation: &Situation,
        verdicts: &Verdicts,
    ) -> Result<Decision, Refusal> {
        let certificate = verdicts.certificates().first();
        let mut decision = [0; DECISION_LENGTH];
        refusal::result(raw::decide(
            self.as_octets(),
            message,
            &(*situation).into(),
            verdicts.message().octet(),
            certificate.copied().unwrap_or(Verdict::Bad).octet(),
            &mut decision,
        ))?;
        Ok(Decision::from_octets(&decision))
    }
}

/// The slots at the front of a list.
fn slots(list: &[u8], count: usize) -> Vec<usize> {
    list[..count].iter().map(|&slot| slot.into()).collect()
}

impl Default for Store {
    fn default() -> Store {
        Store::new()
    }
}

/// The certificates by their slots.
impl fmt::Debug for Store {
    fn fmt(&self, f: &mut fmt::Formatter<'_>) -> fmt::Result {
        f.debug_map().entries(self).finish()
    }
}

impl<'a> IntoIterator for &'a Store {
    type Item = (usize, Stored);
    type IntoIter = Certificates<'a>;

    fn into_iter(self) -> Certificates<'a> {
        self.iter()
    }
}

/// The certificates of a store, each with its slot. [`Store::iter`] makes it.
///
/// ```
/// # mod sample { include!(concat!(env!("CARGO_MANIFEST_DIR"), "/tests/sample/mod.rs")); }
/// let store = sample::store();
/// let slots: Vec<usize> = store.iter().map(|(slot, _)| slot).collect();
/// assert_eq!(slots, [0, 1, 2]);
/// ```
#[derive(Clone, Debug)]
#[must_use = "iterators are lazy"]
pub struct Certificates<'a> {
    store: &'a Store,
    slots: Range<usize>,
}

impl Iterator for Certificates<'_> {
    type Item = (usize, Stored);

    fn next(&mut self) -> Option<(usize, Stored)> {
        let store = self.store;
        self.slots
            .find_map(|slot| store.slot(slot).ok().map(|stored| (slot, stored)))
    }
}

impl FusedIterator for Certificates<'_> {}
