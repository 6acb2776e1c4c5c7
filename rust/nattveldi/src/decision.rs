//! What an accepted message says.

use crate::certificate::Part;
use crate::id::Id;
use crate::octets::{array, double_word, part, word};
use crate::raw::{octet_at, DECISION_LENGTH};
use crate::time::Microseconds;

/// What an accepted message says. [`Store::decide`](crate::Store::decide) gives
/// it.
///
/// ```
/// # mod sample { include!(concat!(env!("CARGO_MANIFEST_DIR"), "/tests/sample/mod.rs")); }
/// use nattveldi::{Verdict, Verdicts};
///
/// let (store, message, situation) = (sample::store(), sample::message(), sample::situation());
/// let verdicts = Verdicts::on_message(Verdict::Good);
/// let decision = store.decide(&message, &situation, &verdicts)?;
/// assert_eq!(decision.payload.of(&message), b"hello");
/// # Ok::<(), nattveldi::Refusal>(())
/// ```
#[derive(Clone, Copy, Debug, PartialEq, Eq, Hash)]
#[non_exhaustive]
pub struct Decision {
    /// The payload, a part of the message. It may be empty.
    pub payload: Part,
    /// The id of the signer's certificate.
    pub signer: Id,
    /// The ITS-AID under which the message was sent.
    pub permission: u32,
    /// When the message was generated.
    pub generation_time: Microseconds,
}

impl Decision {
    /// Takes apart what the library wrote.
    pub(crate) fn from_octets(octets: &[u8; DECISION_LENGTH]) -> Decision {
        Decision {
            payload: part(octets, octet_at::DECISION_PAYLOAD),
            signer: Id::from(array(octets, octet_at::DECISION_SIGNER)),
            permission: word(octets, octet_at::DECISION_PERMISSION),
            generation_time: Microseconds(double_word(octets, octet_at::DECISION_GENERATION_TIME)),
        }
    }
}
