//! What a slot of a store holds.

use alloc::vec::Vec;

use crate::certificate::{Kind, PointType};
use crate::id::Id;
use crate::octets::{array, count, double_word, unfit, word};
use crate::place::{Rectangle, Region};
use crate::raw::octet_at;
use crate::raw::{LONGEST_NAME, MOST_PERMISSIONS, MOST_RECTANGLES, STORED_LENGTH};
use crate::time::Second;

/// Whether a stored certificate is withdrawn. One that is held need not stand:
/// [`Store::standing`](crate::Store::standing) tells.
///
/// ```
/// # mod sample { include!(concat!(env!("CARGO_MANIFEST_DIR"), "/tests/sample/mod.rs")); }
/// use nattveldi::{Second, State};
///
/// let mut store = sample::store();
/// let root = store.slot(0)?.id;
/// let asked = store.ask(root, Second(250))?;
/// store.withdraw(asked)?;
/// assert_eq!(store.slot(0)?.state, State::Withdrawn);
/// assert_eq!(store.slot(1)?.state, State::Held); // though it no longer stands
/// assert!(store.standing(Second(250)).is_empty());
/// # Ok::<(), Box<dyn std::error::Error>>(())
/// ```
#[derive(Clone, Copy, Debug, PartialEq, Eq, Hash)]
#[repr(u8)]
pub enum State {
    /// It is not withdrawn.
    Held = 1,
    /// It is withdrawn, for good.
    Withdrawn = 2,
}

/// Everything that a slot of a store holds of a certificate.
///
/// ```
/// # mod sample { include!(concat!(env!("CARGO_MANIFEST_DIR"), "/tests/sample/mod.rs")); }
/// use nattveldi::{id, Kind, PointType, Rectangle, Second, State, Store, Verdict};
///
/// let land = Rectangle { north: 9, west: -1, south: 0, east: 8 };
/// let root = sample::root_in(land);
/// let ticket = sample::ticket_in("T", id(&root)?, land, 100..1_000);
/// let mut store = Store::new();
/// store.install(&root, Verdict::Good)?;
/// store.admit(&ticket, Verdict::Good)?;
///
/// let stored = store.slot(1)?;
/// assert_eq!((stored.id, stored.issuer), (id(&ticket)?, Some(id(&root)?)));
/// assert_eq!((stored.state, stored.kind), (State::Held, Kind::Ticket));
/// assert_eq!((stored.start, stored.end), (Second(100), 1_000));
/// assert_eq!((&stored.name[..], &stored.permissions[..]), (&b"T"[..], &[36][..]));
/// assert_eq!((stored.point_type, stored.key), (PointType::CompressedY1, [7; 32]));
/// assert_eq!(stored.region.rectangles(), [land]);
/// assert_eq!(store.slot(0)?.issuer, None); // a root
/// # Ok::<(), nattveldi::Refusal>(())
/// ```
#[derive(Clone, Debug, PartialEq, Eq, Hash)]
#[non_exhaustive]
pub struct Stored {
    /// The certificate's id: what names it from now on, in every store.
    pub id: Id,
    /// The issuer's id; `None` for a root.
    pub issuer: Option<Id>,
    /// Whether it is withdrawn.
    pub state: State,
    /// Whether it is a ticket, an authority or a root.
    pub kind: Kind,
    /// The first second of its period.
    pub start: Second,
    /// The first second after its period, counted as [`Second`] is.
    pub end: u64,
    /// The name, 0 to 32 octets, which need not be text.
    pub name: Vec<u8>,
    /// How the verification key's point is given: with an even or an odd y.
    pub point_type: PointType,
    /// The 32 octets of the verification key's x coordinate.
    pub key: [u8; 32],
    /// Where the certificate is valid.
    pub region: Region,
    /// The ITS-AIDs of its permissions, at most 16, in the certificate's order.
    pub permissions: Vec<u32>,
}

impl Stored {
    /// Takes apart what the library wrote.
    pub(crate) fn from_octets(octets: &[u8; STORED_LENGTH]) -> Stored {
        let kind = Kind::from_number(word(octets, octet_at::STORED_KIND));
        let issuer = Id::from(array(octets, octet_at::STORED_ISSUER));
        let length = count(octets, octet_at::STORED_NAME_LENGTH, LONGEST_NAME);
        let permissions = count(octets, octet_at::STORED_PERMISSION_COUNT, MOST_PERMISSIONS);
        let permission = |i| word(octets, octet_at::STORED_PERMISSIONS + 4 * i);
        Stored {
            id: Id::from(array(octets, octet_at::STORED_ID)),
            issuer: (kind != Kind::Root).then_some(issuer),
            state: state(octets),
            kind,
            start: Second(word(octets, octet_at::STORED_START)),
            end: double_word(octets, octet_at::STORED_END),
            name: octets[octet_at::STORED_NAME..][..length].to_vec(),
            point_type: point_type(octets),
            key: array(octets, octet_at::STORED_KEY),
            region: region(octets),
            permissions: (0..permissions).map(permission).collect(),
        }
    }
}

fn state(octets: &[u8]) -> State {
    match word(octets, octet_at::STORED_STATE) {
        1 => State::Held,
        2 => State::Withdrawn,
        other => unfit("a state", other),
    }
}

fn point_type(octets: &[u8]) -> PointType {
    match word(octets, octet_at::STORED_KEY_PARITY) {
        0 => PointType::CompressedY0,
        1 => PointType::CompressedY1,
        other => unfit("the parity of a key", other),
    }
}

fn region(octets: &[u8]) -> Region {
    let count = count(octets, octet_at::STORED_RECTANGLE_COUNT, MOST_RECTANGLES);
    let edge = |index| word(octets, octet_at::STORED_RECTANGLES + 4 * index);
    Region::of(count, |rectangle| {
        Rectangle::from_edges(|i| edge(4 * rectangle + i))
    })
}
