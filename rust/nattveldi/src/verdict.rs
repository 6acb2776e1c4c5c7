//! What the chip says of signatures.

use alloc::vec::Vec;

/// What the chip says of a signature.
///
/// ```
/// use nattveldi::Verdict;
///
/// assert_eq!(Verdict::from(1), Verdict::Good);
/// assert_eq!(Verdict::from(0), Verdict::Bad);
/// assert_eq!(Verdict::from(255), Verdict::Bad);
/// ```
#[derive(Clone, Copy, Debug, PartialEq, Eq, Hash)]
#[repr(u8)]
pub enum Verdict {
    /// The signature is not good, or was not checked.
    Bad = 0,
    /// The signature is good.
    Good = 1,
}

/// The chip's octet: 1 is good, every other bad.
impl From<u8> for Verdict {
    fn from(octet: u8) -> Verdict {
        match octet {
            1 => Verdict::Good,
            _ => Verdict::Bad,
        }
    }
}

impl Verdict {
    /// The octet that the library takes.
    pub(crate) fn octet(self) -> u8 {
        self as u8
    }
}

/// The verdicts on a message: on its own signature, and on those of the
/// certificates that it carries, in their order.
///
/// [`Questions::ask`](crate::Questions::ask) makes them so that each belongs to
/// its question. Made by hand, they are named:
///
/// ```
/// use nattveldi::{Verdict, Verdicts};
///
/// let by_id = Verdicts::on_message(Verdict::Good);
/// assert_eq!(by_id.message(), Verdict::Good);
/// assert!(by_id.certificates().is_empty());
///
/// let with_certificate = by_id.and_certificate(Verdict::Bad);
/// assert_eq!(with_certificate.certificates(), [Verdict::Bad]);
/// ```
///
/// A carried certificate without a verdict counts as bad. A verdict without a
/// carried certificate is ignored, so one behind the first always is: a message
/// carries at most one certificate.
#[derive(Clone, Debug, PartialEq, Eq, Hash)]
#[must_use = "a message is decided by its verdicts"]
pub struct Verdicts {
    message: Verdict,
    certificates: Vec<Verdict>,
}

impl Verdicts {
    pub(crate) const fn new(message: Verdict, certificates: Vec<Verdict>) -> Verdicts {
        Verdicts {
            message,
            certificates,
        }
    }

    /// The verdict on the message's own signature, and none on certificates.
    ///
    /// ```
    /// use nattveldi::{Verdict, Verdicts};
    ///
    /// assert_eq!(Verdicts::on_message(Verdict::Bad).message(), Verdict::Bad);
    /// ```
    pub const fn on_message(verdict: Verdict) -> Verdicts {
        Verdicts::new(verdict, Vec::new())
    }

    /// Adds the verdict on the next carried certificate.
    ///
    /// ```
    /// use nattveldi::{Verdict, Verdicts};
    ///
    /// let verdicts = Verdicts::on_message(Verdict::Good).and_certificate(Verdict::Good);
    /// assert_eq!(verdicts.certificates(), [Verdict::Good]);
    /// ```
    pub fn and_certificate(mut self, verdict: Verdict) -> Verdicts {
        self.certificates.push(verdict);
        self
    }

    /// The verdict on the message's own signature.
    ///
    /// ```
    /// use nattveldi::{Verdict, Verdicts};
    ///
    /// assert_eq!(Verdicts::on_message(Verdict::Good).message(), Verdict::Good);
    /// ```
    #[must_use]
    pub const fn message(&self) -> Verdict {
        self.message
    }

    /// The verdicts on the carried certificates, in their order.
    ///
    /// ```
    /// use nattveldi::{Verdict, Verdicts};
    ///
    /// assert_eq!(Verdicts::on_message(Verdict::Good).certificates(), []);
    /// ```
    #[must_use]
    pub fn certificates(&self) -> &[Verdict] {
        &self.certificates
    }
}

#[cfg(test)]
mod tests {
    use super::*;

    #[test]
    fn no_octet_but_1_is_good() {
        let good = (0..=u8::MAX).filter(|octet| Verdict::from(*octet) == Verdict::Good);
        assert_eq!(good.collect::<Vec<u8>>(), [1]);
        assert_eq!(Verdict::Good.octet(), 1);
    }
}
