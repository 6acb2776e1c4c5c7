//! What the chip is asked about a message.

use alloc::vec::Vec;
use core::convert::Infallible;

use crate::certificate::{Part, PointType};
use crate::octets::{array, part, unfit, word};
use crate::raw::{octet_at, QUESTIONS_LENGTH};
use crate::verdict::{Verdict, Verdicts};

/// What the chip is asked: is this signature, over these octets, good under
/// this key?
///
/// ```
/// # mod sample { include!(concat!(env!("CARGO_MANIFEST_DIR"), "/tests/sample/mod.rs")); }
/// let (store, message) = (sample::store(), sample::message());
/// let question = *store.prepare(&message, &sample::situation())?.message();
/// assert_eq!(question.signed.of(&message), &message[..message.len() - 66]);
/// assert_eq!(question.signature.of(&message), [0; 66]);
/// # Ok::<(), nattveldi::Refusal>(())
/// ```
#[derive(Clone, Copy, Debug, PartialEq, Eq, Hash)]
pub struct Question {
    /// What the signature covers, a part of the message.
    pub signed: Part,
    /// The whole signature structure, a part of the message: algorithm, point
    /// type, 32 octets, 32 octets.
    pub signature: Part,
    /// How the key's point is given: compressed, with an even or an odd y.
    pub point_type: PointType,
    /// The 32 octets of the key's x coordinate.
    pub key: [u8; 32],
}

impl Question {
    /// What is signed and its signature behind it: the whole message, or the
    /// whole of a carried certificate, which [`Store::admit`] takes.
    ///
    /// ```
    /// # mod sample { include!(concat!(env!("CARGO_MANIFEST_DIR"), "/tests/sample/mod.rs")); }
    /// use nattveldi::{id, Part, Store, Verdict};
    ///
    /// let root = sample::root("R");
    /// let ticket = sample::ticket("T", id(&root)?);
    /// let mut store = Store::new();
    /// store.install(&root, Verdict::Good)?;
    ///
    /// let message = sample::message_with(&ticket);
    /// let questions = store.prepare(&message, &sample::situation())?;
    /// assert_eq!(questions.message().whole().of(&message), message);
    /// assert_eq!(questions.certificates()[0].whole().of(&message), ticket);
    /// # Ok::<(), nattveldi::Refusal>(())
    /// ```
    ///
    /// [`Store::admit`]: crate::Store::admit
    #[must_use]
    pub const fn whole(&self) -> Part {
        Part {
            start: self.signed.start,
            length: self.signed.length + self.signature.length,
        }
    }

    /// Point type 0 says that there is no question.
    fn from_octets(octets: &[u8]) -> Option<Question> {
        let number = word(octets, octet_at::QUESTION_KEY_TYPE);
        (number != 0).then(|| Question {
            signed: part(octets, octet_at::QUESTION_SIGNED),
            signature: part(octets, octet_at::QUESTION_SIGNATURE),
            point_type: PointType::from_number(number),
            key: array(octets, octet_at::QUESTION_KEY),
        })
    }
}

/// What the chip is asked about a message.
///
/// ```
/// # mod sample { include!(concat!(env!("CARGO_MANIFEST_DIR"), "/tests/sample/mod.rs")); }
/// use nattveldi::{id, Question, Store, Verdict};
///
/// let root = sample::root("R");
/// let ticket = sample::ticket("T", id(&root)?);
/// let mut store = Store::new();
/// store.install(&root, Verdict::Good)?;
/// let message = sample::message_with(&ticket);
/// let questions = store.prepare(&message, &sample::situation())?;
///
/// let chip = |question: &Question| {
///     let _octets = question.signed.of(&message); // .. is the signature over these good?
///     Verdict::Good
/// };
/// let verdicts = questions.ask(chip);
/// let decision = store.decide(&message, &sample::situation(), &verdicts)?;
/// assert_eq!(decision.signer, id(&ticket)?);
/// # Ok::<(), nattveldi::Refusal>(())
/// ```
#[derive(Clone, Copy, Debug, PartialEq, Eq, Hash)]
#[must_use = "the chip is to be asked them"]
pub struct Questions {
    message: Question,
    certificate: Option<Question>,
}

impl Questions {
    /// About the message, with the key of its signer.
    ///
    /// ```
    /// # mod sample { include!(concat!(env!("CARGO_MANIFEST_DIR"), "/tests/sample/mod.rs")); }
    /// use nattveldi::{PointType, Store, Verdict};
    ///
    /// let (store, message) = (sample::store(), sample::message());
    /// let questions = store.prepare(&message, &sample::situation())?;
    /// let question = questions.message();
    /// assert_eq!(question.signature.of(&message), [0; 66]);
    /// assert_eq!((question.point_type, question.key), (PointType::CompressedY1, [7; 32]));
    /// # Ok::<(), nattveldi::Refusal>(())
    /// ```
    #[must_use]
    pub const fn message(&self) -> &Question {
        &self.message
    }

    /// About the certificates that the message carries, in their order, each
    /// with the key of its issuer: none, or one. There is none if the message
    /// names its signer by id.
    ///
    /// ```
    /// # mod sample { include!(concat!(env!("CARGO_MANIFEST_DIR"), "/tests/sample/mod.rs")); }
    /// let (store, message) = (sample::store(), sample::message());
    /// let questions = store.prepare(&message, &sample::situation())?;
    /// assert!(questions.certificates().is_empty()); // it names its signer by id
    /// # Ok::<(), nattveldi::Refusal>(())
    /// ```
    #[must_use]
    pub fn certificates(&self) -> &[Question] {
        self.certificate.as_slice()
    }

    /// Asks the chip each question, the carried certificates' in their order
    /// and then the message's, and gives the verdicts for
    /// [`Store::decide`](crate::Store::decide).
    ///
    /// ```
    /// # mod sample { include!(concat!(env!("CARGO_MANIFEST_DIR"), "/tests/sample/mod.rs")); }
    /// use nattveldi::{Refusal, Verdict};
    ///
    /// let (store, message) = (sample::store(), sample::message());
    /// let questions = store.prepare(&message, &sample::situation())?;
    /// let verdicts = questions.ask(|_| Verdict::Bad);
    /// let decided = store.decide(&message, &sample::situation(), &verdicts);
    /// assert_eq!(decided, Err(Refusal::Signature));
    /// # Ok::<(), Refusal>(())
    /// ```
    pub fn ask(&self, mut chip: impl FnMut(&Question) -> Verdict) -> Verdicts {
        let asked = self.try_ask(|question| Ok::<Verdict, Infallible>(chip(question)));
        asked.unwrap_or_else(|never| match never {})
    }

    /// Asks as [`ask`](Questions::ask) does, until the chip fails to answer.
    ///
    /// # Errors
    ///
    /// The first of the chip's errors.
    ///
    /// ```
    /// # mod sample { include!(concat!(env!("CARGO_MANIFEST_DIR"), "/tests/sample/mod.rs")); }
    /// let (store, message) = (sample::store(), sample::message());
    /// let questions = store.prepare(&message, &sample::situation())?;
    /// assert_eq!(questions.try_ask(|_| Err("no chip")), Err("no chip"));
    /// # Ok::<(), nattveldi::Refusal>(())
    /// ```
    pub fn try_ask<E>(
        &self,
        mut chip: impl FnMut(&Question) -> Result<Verdict, E>,
    ) -> Result<Verdicts, E> {
        let certificates = self.certificates().iter().map(&mut chip);
        let certificates = certificates.collect::<Result<Vec<Verdict>, E>>()?;
        Ok(Verdicts::new(chip(&self.message)?, certificates))
    }

    /// Takes apart what the library wrote.
    pub(crate) fn from_octets(octets: &[u8; QUESTIONS_LENGTH]) -> Questions {
        let (message, certificate) = octets.split_at(octet_at::CERTIFICATE_QUESTION);
        Questions {
            message: Question::from_octets(message).unwrap_or_else(|| unfit("a point type", 0)),
            certificate: Question::from_octets(certificate),
        }
    }
}
