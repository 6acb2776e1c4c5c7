//! The id of a certificate.

use core::error::Error;
use core::fmt;
use core::str::FromStr;

use crate::raw::ID_LENGTH;
use crate::refusal::Refusal;

/// The id of a certificate: 8 octets, by which stores, messages and pages name
/// it. It is written as 16 hex digits.
///
/// ```
/// use nattveldi::{Id, Refusal};
///
/// let id: Id = "3F1E4feaf33a690d".parse()?;
/// assert_eq!(id.to_string(), "3f1e4feaf33a690d");
/// assert_eq!(id, Id::from([0x3f, 0x1e, 0x4f, 0xea, 0xf3, 0x3a, 0x69, 0x0d]));
/// assert_eq!(Id::try_from(&id.as_octets()[..7]), Err(Refusal::BadCall));
/// assert!(id < Id::from([0x40; 8]));
/// # Ok::<(), nattveldi::ParseIdError>(())
/// ```
#[derive(Clone, Copy, PartialEq, Eq, PartialOrd, Ord, Hash)]
pub struct Id([u8; ID_LENGTH]);

impl Id {
    /// The octets of the id.
    ///
    /// ```
    /// assert_eq!(nattveldi::Id::from([7; 8]).as_octets(), &[7; 8]);
    /// ```
    #[must_use]
    pub const fn as_octets(&self) -> &[u8; ID_LENGTH] {
        &self.0
    }
}

impl From<[u8; ID_LENGTH]> for Id {
    fn from(octets: [u8; ID_LENGTH]) -> Id {
        Id(octets)
    }
}

impl From<Id> for [u8; ID_LENGTH] {
    fn from(id: Id) -> [u8; ID_LENGTH] {
        id.0
    }
}

/// Octets of another length than 8 are [`Refusal::BadCall`].
impl TryFrom<&[u8]> for Id {
    type Error = Refusal;

    fn try_from(octets: &[u8]) -> Result<Id, Refusal> {
        octets.try_into().map(Id).map_err(|_| Refusal::BadCall)
    }
}

/// Takes exactly 16 hex digits, of either case.
impl FromStr for Id {
    type Err = ParseIdError;

    fn from_str(text: &str) -> Result<Id, ParseIdError> {
        let digits = text.bytes().all(|digit| digit.is_ascii_hexdigit());
        if !digits || text.len() != 2 * ID_LENGTH {
            return Err(ParseIdError(()));
        }
        let number = u64::from_str_radix(text, 16).map_err(|_| ParseIdError(()))?;
        Ok(Id(number.to_be_bytes()))
    }
}

impl fmt::Display for Id {
    fn fmt(&self, f: &mut fmt::Formatter<'_>) -> fmt::Result {
        write!(f, "{:016x}", u64::from_be_bytes(self.0))
    }
}

impl fmt::Debug for Id {
    fn fmt(&self, f: &mut fmt::Formatter<'_>) -> fmt::Result {
        write!(f, "Id({self})")
    }
}

/// A text that is not an [`Id`].
///
/// ```
/// let error = "3f1e".parse::<nattveldi::Id>().unwrap_err();
/// assert_eq!(error.to_string(), "an id is 16 hex digits and nothing else");
/// ```
#[derive(Clone, Copy, Debug, PartialEq, Eq)]
pub struct ParseIdError(());

impl fmt::Display for ParseIdError {
    fn fmt(&self, f: &mut fmt::Formatter<'_>) -> fmt::Result {
        f.write_str("an id is 16 hex digits and nothing else")
    }
}

impl Error for ParseIdError {}

#[cfg(test)]
mod tests {
    use alloc::format;

    use super::*;

    #[test]
    fn texts_that_are_not_ids() {
        for text in [
            "",
            "0123456789abcde",
            "0123456789abcdef0",
            "+123456789abcdef",
            " 123456789abcdef",
            "0123456789abcdeg",
            "0x23456789abcdef",
            "0123456789abcdé",
        ] {
            assert_eq!(text.parse::<Id>(), Err(ParseIdError(())), "{text}");
        }
    }

    #[test]
    fn zeros_in_front_are_written() {
        let id = Id([0, 0, 0, 0, 0, 0, 0x0a, 0xff]);
        assert_eq!(format!("{id}"), "0000000000000aff");
        assert_eq!(format!("{id:?}"), "Id(0000000000000aff)");
        assert_eq!("0000000000000AFF".parse(), Ok(id));
    }

    #[test]
    fn octets_of_another_length() {
        for length in [0, 7, 9] {
            let octets = &[1; 9][..length];
            assert_eq!(Id::try_from(octets), Err(Refusal::BadCall));
        }
        assert_eq!(Id::try_from(&[1; 8][..]), Ok(Id([1; 8])));
    }
}
