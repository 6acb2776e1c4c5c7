//! Safe bindings over Nattveldi's proved library of road certificates
//! (ETSI TS 103 097 V1.2.1).
//!
//! [`read`] takes a certificate apart and [`id()`] works out its [`Id`]. A
//! [`Store`] holds certificates: [`Store::install`] puts in a root, and
//! [`Store::admit`] a certificate below an issuer that it holds. [`Store::ask`]
//! tells which certificates would no longer stand after a withdrawal, for a page
//! to show, and [`Store::withdraw`] makes it if that is still so.
//! [`Store::prepare`] tells what the chip is to be asked about a signed message,
//! and [`Store::decide`] accepts or refuses it. All take any octets of any length
//! and either give what was asked for or a [`Refusal`]. Reading copies nothing out
//! of a certificate or message: what the library found is named by [`Part`]s of
//! the caller's octets. The C functions, over octets and numbers alone, are in
//! [`raw`].
//!
//! ```
//! use nattveldi::{id, read, Kind, Refusal, Second};
//!
//! let mut certificate = vec![2, 0, 4, 1, b'R']; // version 2, signed by itself, a root, named "R"
//! certificate.extend([37, 0, 0, 2]);            // attributes: a verification key ..
//! certificate.extend([7; 32]);
//! certificate.extend([32, 0]);                  // .. and no permissions
//! certificate.extend([5, 0, 0, 0, 3, 232]);     // restrictions: ends at second 1,000
//! certificate.extend([0, 0]);                   // the signature
//! certificate.extend([9; 64]);
//!
//! let fields = read(&certificate)?;
//! assert_eq!(fields.kind, Kind::Root);
//! assert_eq!(fields.name.of(&certificate), b"R");
//! assert_eq!(fields.key.x.of(&certificate), [7; 32]);
//! assert_eq!((fields.period.start, fields.period.end), (Second(0), 1_000));
//! assert_eq!(fields.signed.length, certificate.len() - 66);
//! // The end of `sha256sum` over these octets, which have 0 for the signature's point type.
//! assert_eq!(id(&certificate)?.to_string(), "3f1e4feaf33a690d");
//!
//! let refusal = read(&certificate[..50]).unwrap_err();
//! assert_eq!(refusal, Refusal::Cut);
//! assert_eq!(refusal.number(), 4);
//! # Ok::<(), Refusal>(())
//! ```
//!
//! In the other examples, `sample` makes certificates, messages and a store; it
//! is `tests/sample/mod.rs` of this crate.
//!
//! The archive is made by `make archive` in the repository's root. The build
//! looks for it in the folder that the environment variable `NATTVELDI_LIB_DIR`
//! names or, without that, in `crates/nattveldi_c/out` there, and then where
//! pkg-config knows an installed one of the same version. Without it the crate
//! is checked and documented all the same, and a warning says what to run; a
//! program that uses it is not linked. The crate can be copied out of the
//! repository; tests that compare it with the header and the documents cannot.
//!
//! The feature `std`, a default, has the conversions between [`Microseconds`] or
//! [`Second`] and `SystemTime`. Without it the crate needs `core` and `alloc`
//! alone.

#![no_std]
#![deny(unsafe_code)]
#![warn(missing_docs)]

extern crate alloc;
#[cfg(any(feature = "std", test))]
extern crate std;

mod certificate;
mod decision;
#[allow(unsafe_code)]
mod ffi;
mod id;
pub mod leap;
mod octets;
mod page;
mod place;
mod question;
pub mod raw;
mod refusal;
mod situation;
mod store;
mod stored;
mod time;
mod verdict;
mod withdrawal;

pub use certificate::{
    Certificate, Kind, Part, Period, PeriodForm, Permission, PointType, PublicKey, Signature,
};
pub use decision::Decision;
pub use id::{Id, ParseIdError};
pub use page::page;
pub use place::{Position, Rectangle, Region};
pub use question::{Question, Questions};
pub use raw::{SLOTS, STORE_LENGTH};
pub use refusal::Refusal;
pub use situation::{Age, Situation};
pub use store::{Certificates, Store};
pub use stored::{State, Stored};
pub use time::{Microseconds, Second, TimeOutOfRange};
pub use verdict::{Verdict, Verdicts};
pub use withdrawal::{NotWithdrawn, Withdrawal};

/// The version of the library and of these bindings, that of `NATTVELDI_VERSION`
/// in the C header.
///
/// ```
/// assert_eq!(nattveldi::VERSION.split('.').count(), 3);
/// ```
pub const VERSION: &str = env!("CARGO_PKG_VERSION");

/// Reads a certificate.
///
/// # Errors
///
/// Why the octets are not a certificate that is read here.
///
/// ```
/// assert_eq!(nattveldi::read(&[]), Err(nattveldi::Refusal::Cut));
/// assert_eq!(nattveldi::read(&[0; 1_025]), Err(nattveldi::Refusal::TooLong));
/// ```
pub fn read(certificate: &[u8]) -> Result<Certificate, Refusal> {
    let mut fields = [0; raw::FIELDS_LENGTH];
    refusal::result(raw::read(certificate, &mut fields))?;
    Ok(Certificate::from_fields(&fields))
}

/// Works out the id of a certificate: the last 8 octets of SHA-256 over it,
/// with the point type of its signature taken as 0.
///
/// # Errors
///
/// As [`read`]'s.
///
/// ```
/// assert_eq!(nattveldi::id(&[3]), Err(nattveldi::Refusal::Unsupported));
/// ```
pub fn id(certificate: &[u8]) -> Result<Id, Refusal> {
    let mut id = [0; raw::ID_LENGTH];
    refusal::result(raw::id(certificate, &mut id))?;
    Ok(Id::from(id))
}
