//! The numbers by which the library refuses, and what they mean.

use core::error::Error;
use core::fmt;

use crate::raw::ACCEPTED;

/// Why the library refused. The numbers are those of the C header.
///
/// ```
/// use nattveldi::Refusal;
///
/// let refusal = Refusal::from_number(5).unwrap();
/// assert_eq!(refusal, Refusal::Malformed);
/// assert_eq!(refusal.name(), "malformed");
/// assert_eq!(refusal.to_string(), "malformed: it breaks a rule of the layout");
/// ```
#[derive(Clone, Copy, Debug, PartialEq, Eq, Hash, PartialOrd, Ord)]
#[non_exhaustive]
#[repr(u8)]
pub enum Refusal {
    /// A length, position or age is out of range, or a slot is above 63.
    BadCall = 1,
    /// A slot of the store breaks a rule, or two slots share an id.
    BadStore = 2,
    /// The certificate has more than 1,024 octets, or the message more than
    /// 2,048.
    TooLong = 3,
    /// A field or vector passes the end of what holds it.
    Cut = 4,
    /// It breaks a rule of the layout.
    Malformed = 5,
    /// A version, type or algorithm is not read, or a number or count is too
    /// large.
    Unsupported = 6,
    /// The issuer, the signer or the id is not in the store, or the slot is
    /// empty.
    Unknown = 7,
    /// The issuer, the signer or the certificate with the id is withdrawn.
    Withdrawn = 8,
    /// The carried certificate differs from the stored one.
    OtherCertificate = 9,
    /// The call takes other kinds, an issuer is a ticket, or a signer is not a
    /// ticket.
    WrongKind = 10,
    /// The issuer lacks a certificate's permission, or the signer the
    /// message's.
    NotPermitted = 11,
    /// A period is not inside the issuer's, or the message's second is not in
    /// it.
    OutsidePeriod = 12,
    /// A region is not inside the issuer's, or the position is not in it.
    OutsidePlace = 13,
    /// The message is too old, too far ahead of now, or expired.
    OutOfDate = 14,
    /// The verdict on a signature is not good.
    Signature = 15,
    /// No slot of the store is empty.
    Full = 16,
    /// The id is in the store already, held or withdrawn.
    AlreadyHeld = 17,
    /// The eighth certificate from the signer upward is not a root.
    ChainTooLong = 18,
}

impl Refusal {
    /// Every refusal, in the order of the numbers.
    ///
    /// ```
    /// use nattveldi::Refusal;
    ///
    /// for refusal in Refusal::ALL {
    ///     println!("{} {refusal}", refusal.number());
    /// }
    /// assert_eq!(Refusal::ALL[4], Refusal::Malformed);
    /// ```
    pub const ALL: [Refusal; 18] = [
        Refusal::BadCall,
        Refusal::BadStore,
        Refusal::TooLong,
        Refusal::Cut,
        Refusal::Malformed,
        Refusal::Unsupported,
        Refusal::Unknown,
        Refusal::Withdrawn,
        Refusal::OtherCertificate,
        Refusal::WrongKind,
        Refusal::NotPermitted,
        Refusal::OutsidePeriod,
        Refusal::OutsidePlace,
        Refusal::OutOfDate,
        Refusal::Signature,
        Refusal::Full,
        Refusal::AlreadyHeld,
        Refusal::ChainTooLong,
    ];

    /// The refusal that has this number, if there is one.
    ///
    /// ```
    /// use nattveldi::Refusal;
    ///
    /// assert_eq!(Refusal::from_number(8), Some(Refusal::Withdrawn));
    /// assert_eq!(Refusal::from_number(0), None); // accepted
    /// ```
    #[must_use]
    pub fn from_number(number: u8) -> Option<Refusal> {
        Refusal::ALL
            .into_iter()
            .find(|refusal| refusal.number() == number)
    }

    /// The number by which the library refuses.
    ///
    /// ```
    /// assert_eq!(nattveldi::Refusal::ChainTooLong.number(), 18);
    /// ```
    #[must_use]
    pub fn number(self) -> u8 {
        self as u8
    }

    /// The refusal's name, a few words.
    ///
    /// ```
    /// assert_eq!(nattveldi::Refusal::OutOfDate.name(), "out of date");
    /// ```
    #[must_use]
    pub fn name(self) -> &'static str {
        match self {
            Refusal::BadCall => "bad call",
            Refusal::BadStore => "bad store",
            Refusal::TooLong => "too long",
            Refusal::Cut => "cut",
            Refusal::Malformed => "malformed",
            Refusal::Unsupported => "unsupported",
            Refusal::Unknown => "unknown",
            Refusal::Withdrawn => "withdrawn",
            Refusal::OtherCertificate => "other certificate under this id",
            Refusal::WrongKind => "wrong kind",
            Refusal::NotPermitted => "not permitted",
            Refusal::OutsidePeriod => "outside period",
            Refusal::OutsidePlace => "outside place",
            Refusal::OutOfDate => "out of date",
            Refusal::Signature => "signature",
            Refusal::Full => "full",
            Refusal::AlreadyHeld => "already held",
            Refusal::ChainTooLong => "chain too long",
        }
    }

    /// What the refusal means, as the end of a sentence.
    ///
    /// ```
    /// let meaning = nattveldi::Refusal::Full.meaning();
    /// assert_eq!(format!("refused: {meaning}"), "refused: no slot of the store is empty");
    /// ```
    #[must_use]
    pub fn meaning(self) -> &'static str {
        match self {
            Refusal::BadCall => "a length, position or age is out of range, or a slot is above 63",
            Refusal::BadStore => "a slot of the store breaks a rule, or two slots share an id",
            Refusal::TooLong => {
                "the certificate has more than 1,024 octets, or the message more than 2,048"
            }
            Refusal::Cut => "a field or vector passes the end of what holds it",
            Refusal::Malformed => "it breaks a rule of the layout",
            Refusal::Unsupported => {
                "a version, type or algorithm is not read, or a number or count is too large"
            }
            Refusal::Unknown => {
                "the issuer, the signer or the id is not in the store, or the slot is empty"
            }
            Refusal::Withdrawn => {
                "the issuer, the signer or the certificate with the id is withdrawn"
            }
            Refusal::OtherCertificate => "the carried certificate differs from the stored one",
            Refusal::WrongKind => {
                "the call takes other kinds, an issuer is a ticket, or a signer is not a ticket"
            }
            Refusal::NotPermitted => {
                "the issuer lacks a certificate's permission, or the signer the message's"
            }
            Refusal::OutsidePeriod => {
                "a period is not inside the issuer's, or the message's second is not in it"
            }
            Refusal::OutsidePlace => {
                "a region is not inside the issuer's, or the position is not in it"
            }
            Refusal::OutOfDate => "the message is too old, too far ahead of now, or expired",
            Refusal::Signature => "the verdict on a signature is not good",
            Refusal::Full => "no slot of the store is empty",
            Refusal::AlreadyHeld => "the id is in the store already, held or withdrawn",
            Refusal::ChainTooLong => "the eighth certificate from the signer upward is not a root",
        }
    }
}

impl fmt::Display for Refusal {
    fn fmt(&self, f: &mut fmt::Formatter<'_>) -> fmt::Result {
        write!(f, "{}: {}", self.name(), self.meaning())
    }
}

impl Error for Refusal {}

/// The library's answer as a result.
pub(crate) fn result(number: u8) -> Result<(), Refusal> {
    if number == ACCEPTED {
        return Ok(());
    }
    Err(known(number.into()))
}

/// A count, or a refusal if it is minus a number.
pub(crate) fn count(answer: i32) -> Result<usize, Refusal> {
    usize::try_from(answer).map_err(|_| known(answer.unsigned_abs()))
}

fn known(number: u32) -> Refusal {
    let number_of_one = u8::try_from(number).ok().and_then(Refusal::from_number);
    number_of_one.unwrap_or_else(|| {
        panic!("the archive answered {number}, a number that these bindings do not know")
    })
}

#[cfg(test)]
mod tests {
    use alloc::vec::Vec;

    use super::*;

    #[test]
    fn numbers_are_the_papers() {
        let numbers: Vec<u8> = Refusal::ALL.iter().map(|r| r.number()).collect();
        assert_eq!(numbers, Vec::from_iter(1..=18));
        for number in [0, 19, 255] {
            assert_eq!(Refusal::from_number(number), None);
        }
        assert_eq!(result(0), Ok(()));
        assert_eq!(result(4), Err(Refusal::Cut));
        assert_eq!((count(0), count(64)), (Ok(0), Ok(64)));
        assert_eq!(count(-8), Err(Refusal::Withdrawn));
    }

    /// The names in the paper's table.
    #[test]
    fn names_are_the_papers() {
        let names: Vec<&str> = Refusal::ALL.iter().map(|r| r.name()).collect();
        let table = "bad call, bad store, too long, cut, malformed, unsupported, unknown, \
                     withdrawn, other certificate under this id, wrong kind, not permitted, \
                     outside period, outside place, out of date, signature, full, already held, \
                     chain too long";
        assert_eq!(names.join(", "), table);
    }
}
