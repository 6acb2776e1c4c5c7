//! A certificate's fields, out of the words that the library writes.

use crate::octets::{count, double_word, part, unfit, word};
use crate::place::{Rectangle, Region};
use crate::raw::{word_at, FIELDS_LENGTH, MOST_PERMISSIONS, MOST_RECTANGLES};
use crate::time::Second;

/// A run of the octets that were passed, a certificate's or a message's.
///
/// ```
/// # mod sample { include!(concat!(env!("CARGO_MANIFEST_DIR"), "/tests/sample/mod.rs")); }
/// use nattveldi::{read, Part};
///
/// // Behind version, signer, kind and the name's length, one octet each.
/// assert_eq!(read(&sample::root("R1"))?.name, Part { start: 4, length: 2 });
/// # Ok::<(), nattveldi::Refusal>(())
/// ```
#[derive(Clone, Copy, Debug, Default, PartialEq, Eq, Hash)]
pub struct Part {
    /// The offset of its first octet.
    pub start: usize,
    /// How many octets it has.
    pub length: usize,
}

impl Part {
    /// Takes the part's octets out of the certificate or message that was
    /// passed.
    ///
    /// # Panics
    ///
    /// If the part does not lie inside `octets`, which then are others than
    /// were passed.
    ///
    /// ```
    /// let part = nattveldi::Part { start: 2, length: 3 };
    /// assert_eq!(part.of(b"abcdefgh"), b"cde");
    /// ```
    #[must_use]
    pub fn of(self, octets: &[u8]) -> &[u8] {
        &octets[self.start..][..self.length]
    }
}

/// The kind of a certificate.
///
/// ```
/// # mod sample { include!(concat!(env!("CARGO_MANIFEST_DIR"), "/tests/sample/mod.rs")); }
/// use nattveldi::{read, Kind};
///
/// assert_eq!(read(&sample::root("R"))?.kind, Kind::Root);
/// # Ok::<(), nattveldi::Refusal>(())
/// ```
#[derive(Clone, Copy, Debug, PartialEq, Eq, Hash)]
#[repr(u8)]
pub enum Kind {
    /// An authorization ticket, which signs messages.
    Ticket = 1,
    /// An authorization authority, which signs certificates.
    Authority = 2,
    /// A root, signed by itself.
    Root = 4,
}

impl Kind {
    /// The kind that has this number.
    pub(crate) fn from_number(number: u32) -> Kind {
        match number {
            1 => Kind::Ticket,
            2 => Kind::Authority,
            4 => Kind::Root,
            other => unfit("a kind", other),
        }
    }
}

/// How a point of the curve is given.
///
/// ```
/// # mod sample { include!(concat!(env!("CARGO_MANIFEST_DIR"), "/tests/sample/mod.rs")); }
/// use nattveldi::{read, PointType};
///
/// let fields = read(&sample::root("R"))?;
/// assert_eq!(fields.key.point_type, PointType::CompressedY1);
/// assert_eq!(fields.signature.point_type, PointType::XCoordinateOnly);
/// # Ok::<(), nattveldi::Refusal>(())
/// ```
#[derive(Clone, Copy, Debug, PartialEq, Eq, Hash)]
#[repr(u8)]
pub enum PointType {
    /// Its x coordinate only. For signatures alone.
    XCoordinateOnly = 0,
    /// Its x coordinate, and that y is even.
    CompressedY0 = 2,
    /// Its x coordinate, and that y is odd.
    CompressedY1 = 3,
}

impl PointType {
    /// The point type that has this number.
    pub(crate) fn from_number(number: u32) -> PointType {
        match number {
            0 => PointType::XCoordinateOnly,
            2 => PointType::CompressedY0,
            3 => PointType::CompressedY1,
            other => unfit("a point type", other),
        }
    }
}

/// A public key: a point of the curve.
///
/// ```
/// # mod sample { include!(concat!(env!("CARGO_MANIFEST_DIR"), "/tests/sample/mod.rs")); }
/// use nattveldi::{read, PointType};
///
/// let root = sample::root("R");
/// let key = read(&root)?.key;
/// assert_eq!(key.point_type, PointType::CompressedY1);
/// assert_eq!(key.x.of(&root), [7; 32]);
/// # Ok::<(), nattveldi::Refusal>(())
/// ```
#[derive(Clone, Copy, Debug, PartialEq, Eq, Hash)]
pub struct PublicKey {
    /// How the point is given: compressed, with an even or an odd y.
    pub point_type: PointType,
    /// The 32 octets of its x coordinate.
    pub x: Part,
}

/// A permission: an ITS-AID and, in a ticket, its service specific permissions.
///
/// ```
/// # mod sample { include!(concat!(env!("CARGO_MANIFEST_DIR"), "/tests/sample/mod.rs")); }
/// let ticket = sample::ticket("T", [1; 8].into());
/// let permission = nattveldi::read(&ticket)?.permissions()[0];
/// assert_eq!(permission.its_aid, 36);
/// assert!(permission.ssp.of(&ticket).is_empty());
/// # Ok::<(), nattveldi::Refusal>(())
/// ```
#[derive(Clone, Copy, Debug, Default, PartialEq, Eq, Hash)]
pub struct Permission {
    /// The ITS-AID.
    pub its_aid: u32,
    /// The SSP, 0 to 31 octets. Empty at 0 where the kind has none.
    pub ssp: Part,
}

/// How a period is given.
///
/// ```
/// # mod sample { include!(concat!(env!("CARGO_MANIFEST_DIR"), "/tests/sample/mod.rs")); }
/// use nattveldi::{read, PeriodForm};
///
/// assert_eq!(read(&sample::root("R"))?.period.form, PeriodForm::StartAndEnd);
/// # Ok::<(), nattveldi::Refusal>(())
/// ```
#[derive(Clone, Copy, Debug, PartialEq, Eq, Hash)]
#[repr(u8)]
pub enum PeriodForm {
    /// By its end; it starts at second 0.
    End = 0,
    /// By start and end.
    StartAndEnd = 1,
    /// By start and duration.
    StartAndDuration = 2,
}

/// When a certificate is valid: `start` ≤ second < `end`.
///
/// ```
/// # mod sample { include!(concat!(env!("CARGO_MANIFEST_DIR"), "/tests/sample/mod.rs")); }
/// use nattveldi::{read, PeriodForm, Second};
///
/// let period = read(&sample::ticket_at("T", [1; 8].into(), 100..1_000))?.period;
/// assert_eq!(period.form, PeriodForm::StartAndEnd);
/// assert_eq!((period.start, period.end), (Second(100), 1_000));
/// # Ok::<(), nattveldi::Refusal>(())
/// ```
#[derive(Clone, Copy, Debug, PartialEq, Eq, Hash)]
pub struct Period {
    /// How the certificate gives it.
    pub form: PeriodForm,
    /// Its first second.
    pub start: Second,
    /// The first second after it, counted as [`Second`] is. It has 64 bits: a
    /// start and a duration may end beyond the last [`Second`].
    pub end: u64,
}

/// A signature as it stands in the certificate. It is not checked here.
///
/// ```
/// # mod sample { include!(concat!(env!("CARGO_MANIFEST_DIR"), "/tests/sample/mod.rs")); }
/// let root = sample::root("R");
/// let fields = nattveldi::read(&root)?;
/// assert_eq!(fields.signature.whole.of(&root), [0; 66]);
/// assert_eq!(fields.signed.of(&root), &root[..root.len() - 66]);
/// # Ok::<(), nattveldi::Refusal>(())
/// ```
#[derive(Clone, Copy, Debug, PartialEq, Eq, Hash)]
pub struct Signature {
    /// How its point R is given.
    pub point_type: PointType,
    /// The whole structure: algorithm, point type, 32 octets, 32 octets.
    pub whole: Part,
}

/// The fields of a certificate. Its parts are parts of the octets that were
/// read.
///
/// ```
/// # mod sample { include!(concat!(env!("CARGO_MANIFEST_DIR"), "/tests/sample/mod.rs")); }
/// use nattveldi::{id, read};
///
/// let root = sample::root("R");
/// let ticket = sample::ticket("T", id(&root)?);
/// let fields = read(&ticket)?;
/// let issuer = fields.issuer.expect("it is not signed by itself");
/// assert_eq!(issuer.of(&ticket), id(&root)?.as_octets());
/// assert_eq!(fields.name.of(&ticket), b"T");
/// assert_eq!(fields.assurance, None);
/// # Ok::<(), nattveldi::Refusal>(())
/// ```
#[derive(Clone, Debug, PartialEq, Eq)]
pub struct Certificate {
    /// The issuer's id; `None` if the certificate is signed by itself.
    pub issuer: Option<Part>,
    /// Whether it is a ticket, an authority or a root.
    pub kind: Kind,
    /// The name, 0 to 32 octets.
    pub name: Part,
    /// The verification key.
    pub key: PublicKey,
    /// The encryption key, if there is one.
    pub encryption_key: Option<PublicKey>,
    /// The subject assurance, if it is given.
    pub assurance: Option<u8>,
    /// When the certificate is valid.
    pub period: Period,
    /// Where the certificate is valid.
    pub region: Region,
    /// Whether a region is given, be it "none".
    pub has_region: bool,
    /// What the signature covers: all octets before it.
    pub signed: Part,
    /// The signature.
    pub signature: Signature,
    permission_count: usize,
    permissions: [Permission; MOST_PERMISSIONS],
}

impl Certificate {
    /// The permissions, at most 16, in the certificate's order, with repeats.
    ///
    /// ```
    /// # mod sample { include!(concat!(env!("CARGO_MANIFEST_DIR"), "/tests/sample/mod.rs")); }
    /// let fields = nattveldi::read(&sample::root("R"))?;
    /// assert_eq!(fields.permissions().len(), 1);
    /// assert_eq!(fields.permissions()[0].its_aid, 36);
    /// # Ok::<(), nattveldi::Refusal>(())
    /// ```
    #[must_use]
    pub fn permissions(&self) -> &[Permission] {
        &self.permissions[..self.permission_count]
    }

    /// Takes apart what the library wrote.
    pub(crate) fn from_fields(fields: &[u8; FIELDS_LENGTH]) -> Certificate {
        let fields = Fields(fields);
        Certificate {
            issuer: fields
                .flag(word_at::SIGNER)
                .then(|| fields.part(word_at::ISSUER)),
            kind: Kind::from_number(fields.word(word_at::KIND)),
            name: fields.part(word_at::NAME),
            key: fields.public_key(word_at::KEY_TYPE),
            encryption_key: fields.encryption_key(),
            assurance: fields.assurance(),
            period: fields.period(),
            region: fields.region(),
            has_region: fields.flag(word_at::HAS_REGION),
            signed: fields.part(word_at::SIGNED),
            signature: Signature {
                point_type: PointType::from_number(fields.word(word_at::SIGNATURE_TYPE)),
                whole: fields.part(word_at::SIGNATURE),
            },
            permission_count: fields.count(word_at::PERMISSION_COUNT, MOST_PERMISSIONS),
            permissions: core::array::from_fn(|i| fields.permission(i)),
        }
    }
}

/// The 90 words. A flag, count, kind, form, point type or assurance with a number
/// that it cannot have comes from another archive than these bindings were
/// written for: a panic. All other words are taken as they are.
struct Fields<'a>(&'a [u8; FIELDS_LENGTH]);

impl Fields<'_> {
    fn word(&self, at: usize) -> u32 {
        word(self.0, 4 * at)
    }

    fn part(&self, at: usize) -> Part {
        part(self.0, 4 * at)
    }

    fn count(&self, at: usize, most: usize) -> usize {
        count(self.0, 4 * at, most)
    }

    fn flag(&self, at: usize) -> bool {
        match self.word(at) {
            0 => false,
            1 => true,
            other => unfit("a flag", other),
        }
    }

    fn public_key(&self, at: usize) -> PublicKey {
        PublicKey {
            point_type: PointType::from_number(self.word(at)),
            x: self.part(at + 1),
        }
    }

    fn encryption_key(&self) -> Option<PublicKey> {
        let at = word_at::ENCRYPTION_KEY_TYPE;
        (self.word(at) != 0).then(|| self.public_key(at))
    }

    fn assurance(&self) -> Option<u8> {
        let level = self.word(word_at::ASSURANCE);
        let assurance = || u8::try_from(level).unwrap_or_else(|_| unfit("an assurance", level));
        self.flag(word_at::HAS_ASSURANCE).then(assurance)
    }

    fn period(&self) -> Period {
        let form = match self.word(word_at::PERIOD_FORM) {
            0 => PeriodForm::End,
            1 => PeriodForm::StartAndEnd,
            2 => PeriodForm::StartAndDuration,
            other => unfit("the form of a period", other),
        };
        Period {
            form,
            start: Second(self.word(word_at::START)),
            end: double_word(self.0, 4 * word_at::END),
        }
    }

    fn region(&self) -> Region {
        let count = self.count(word_at::RECTANGLE_COUNT, MOST_RECTANGLES);
        let edge = |index| self.word(word_at::RECTANGLES + index);
        Region::of(count, |rectangle| {
            Rectangle::from_edges(|i| edge(4 * rectangle + i))
        })
    }

    fn permission(&self, index: usize) -> Permission {
        Permission {
            its_aid: self.word(word_at::PERMISSIONS + index),
            ssp: Part {
                start: self.word(word_at::SSP_STARTS + index) as usize,
                length: self.word(word_at::SSP_LENGTHS + index) as usize,
            },
        }
    }
}
