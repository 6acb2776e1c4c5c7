//! A store with the three example certificates.

use super::certificates::{authority, root, ticket};
use crate::proved;
use crate::verdict::GOOD;

/// The library fills it; the verdicts on the placeholder signatures are given
/// as good.
pub fn store() -> Vec<u8> {
    let mut store = proved::empty_store();
    proved::install(&mut store, &root(), GOOD).expect("the example root is installed");
    for certificate in [authority(), ticket()] {
        proved::admit(&mut store, &certificate, GOOD).expect("an example is admitted");
    }
    store.to_vec()
}
