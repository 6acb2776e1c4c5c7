//! The proved library against the independent reference.
//!
//! - Vectors: [`vectors`] reads the files under `vectors/`, [`requests`] takes
//!   a request line apart, [`answers`] gives one side's answer line.
//! - Random certificates: [`plan`] makes up a valid one, [`draft`] is its
//!   layout, [`wire`] its octets; [`broken_layouts`] breaks the layout,
//!   [`broken_octets`] the octets; [`generate`] chooses among all of these.
//! - Random stores: [`slot`] has a slot's bits, [`mod@entry`] what they say;
//!   [`broken_stores`] breaks its octets. [`by_hand`] has some that are not random.
//! - Putting a certificate in: [`scene`] makes up a request, below an issuer of
//!   [`issuers`] or, in a store that grows, of [`growth`]; [`broken_admissions`]
//!   has the reasons to refuse it, [`expect`] the paper's answer.
//! - Withdrawing one: [`forest`] makes up a store of chains, [`broken_chains`]
//!   breaks them, [`questions`] asks about one of its certificates; [`standing`]
//!   says what stands, [`outcome`] is the paper's answer.
//! - Looking into a store: [`overview`].
//! - Signed messages: [`message`], with ids worked out in [`sha256`].
//! - [`breaks`] makes sound requests bad; [`counts`] has what came up in a run;
//!   [`buffers`] is about what the caller lends.
//! - [`soak`] makes requests of all kinds on a store that lives on; [`lines`]
//!   writes one down.
//! - [`sides`], [`changes`], [`lists`], [`withdrawals`], [`pages`] and
//!   [`judgements`] ask a side, [`compare`] holds the sides against each other.

pub mod answers;
pub mod breaks;
pub mod broken_admissions;
pub mod broken_chains;
pub mod broken_layouts;
pub mod broken_octets;
pub mod broken_stores;
pub mod buffers;
pub mod by_hand;
pub mod changes;
pub mod compare;
pub mod counts;
pub mod draft;
pub mod entry;
pub mod expect;
pub mod forest;
pub mod generate;
pub mod growth;
pub mod hex;
pub mod issuers;
pub mod judgements;
pub mod lines;
pub mod lists;
pub mod message;
pub mod outcome;
pub mod overview;
pub mod pages;
pub mod plan;
pub mod questions;
pub mod random;
pub mod requests;
pub mod scene;
pub mod seed;
pub mod sha256;
pub mod sides;
pub mod slot;
pub mod soak;
pub mod standing;
pub mod vectors;
pub mod wire;
pub mod withdrawals;

/// The code of docs/RUST.md is a test.
#[cfg(doctest)]
#[doc = include_str!("../../../docs/RUST.md")]
struct Guide;
