//! Requests to withdraw a certificate, and what each side makes of them.

use nattveldi::{raw, Id, NotWithdrawn, Refusal, Second, Store};

use crate::changes::{self, Changed};
use crate::sides::Side;

/// A request to withdraw the certificate under an id.
#[derive(Clone, Debug, PartialEq)]
pub struct Withdrawal {
    pub store: Vec<u8>,
    pub id: Vec<u8>,
}

impl Withdrawal {
    /// A side's answer. The request stays as it is.
    pub fn ask(&self, side: Side) -> Changed {
        let mut store = self.store.clone();
        let number = match side {
            Side::Library => raw::withdraw(&mut store, &self.id),
            Side::Bindings => match Id::try_from(&self.id[..]) {
                Ok(id) => changes::bound(&mut store, |store| withdraw(store, id)),
                Err(refusal) => refusal.number(),
            },
            Side::Reference => reference::withdraw(&mut store, &self.id).err().unwrap_or(0),
        };
        Changed { number, store }
    }
}

/// Asks and withdraws at once. The number is the same at every second.
fn withdraw(store: &mut Store, id: Id) -> Result<(), Refusal> {
    let asked = store.ask(id, Second(0))?;
    store.withdraw(asked).map_err(|fault| match fault {
        NotWithdrawn::Refused(refusal) => refusal,
        NotWithdrawn::Changed { .. } => panic!("nothing changed in between: {fault}"),
    })
}
