//! Reasons to refuse a message that would else be accepted. Some of them do not
//! lead to a refusal each time.

mod above;
mod call;
mod octets;
mod signer;
mod when;

use super::scene::Scene;
use crate::breaks::Break;

/// Every break and its name.
pub const ALL: [Break<Scene>; 35] = [
    ("a position out of range", call::position),
    ("an age over the limit", call::age),
    ("a store of another length", call::store_length),
    ("a damaged store", call::damaged_store),
    ("a bad store", call::bad_store),
    ("a message that is too long", octets::too_long),
    ("octets behind, up to the limit", octets::up_to_limit),
    ("a fault of the layout", octets::fault),
    ("a fault of the layout, again", octets::fault),
    ("a damaged message", octets::damaged),
    ("a faulty certificate", octets::faulty_certificate),
    ("a damaged certificate", octets::damaged_certificate),
    ("any octets", octets::any),
    ("too old or too new by one", when::stale),
    ("far too old or too new", when::far),
    ("an extreme time", when::extreme),
    ("expired", when::expired),
    ("expired by seconds of more than 32 bits", when::expired_far),
    ("outside the period by one", when::outside_period),
    ("outside the period by 2^32", when::outside_far),
    ("outside the region by one", when::outside_region),
    ("a signer that is not stored", signer::not_stored),
    ("a withdrawn signer", signer::withdrawn),
    ("another record under the signer's id", signer::different),
    ("almost the signer's id", signer::almost),
    ("a signer that is no ticket", signer::no_ticket),
    ("an its_aid that is not permitted", signer::not_permitted),
    ("a bad verdict on the message", signer::bad_verdict),
    ("a bad verdict on the certificate", signer::bad_certificate),
    ("a break above", above::one_break),
    ("two breaks above", above::two_breaks),
    ("an issuer with less", above::less),
    ("an issuer that is not there", above::unknown),
    ("a chain of more than eight", above::too_long),
    ("a ring", above::ring),
];
