//! A long run of random requests of all operations, library against reference.
//!
//! - [`living`] is the store that most of them are on, [`making`] makes them up,
//!   `judging` those about messages.
//! - [`call`] puts one to both sides and compares what they leave, [`table`]
//!   counts the answers.

pub mod call;
mod judging;
pub mod living;
pub mod making;
pub mod table;

use crate::hex;
use crate::lines;
use crate::random::Random;
use crate::requests::Request;
use call::{Call, Given};
use living::Living;
use making::{Keeps, Made};
use table::Table;

/// A side that is asked.
pub type Ask = fn(&Call) -> Given;

/// Makes so many requests and asks the library and the reference. Answers how
/// often each answer was given, or says which request they differ on. `tell` is
/// called with the number of each request.
pub fn run(
    seed: u64,
    count: u64,
    library: Ask,
    mut tell: impl FnMut(u64),
) -> Result<Table, String> {
    let mut random = Random::new(seed);
    let mut living = Living::fresh(&mut random);
    let mut table = Table::default();
    for index in 0..count {
        tell(index);
        let made = making::made(&living, &mut random);
        step(made, library, &mut living, &mut table)
            .map_err(|said| format!("request {index} of seed {seed}: {said}"))?;
        living.live_on(&mut random);
    }
    Ok(table)
}

/// Asks both sides, and lets the living store have what it keeps.
fn step(made: Made, library: Ask, living: &mut Living, table: &mut Table) -> Result<(), String> {
    let Made { call, keeps } = made;
    let (given, expected) = (library(&call), call::reference(&call));
    let whole = |said| format!("{said}\n{}", text(&call));
    if let Some(difference) = call::difference(&given, &expected) {
        return Err(whole(format!("library against reference: {difference}")));
    }
    let number = table.add(&call, &given).map_err(whole)?;
    match keeps {
        Keeps::Entered(plan) if number == 0 => {
            if let Request::Change(change) = &call.request {
                let id = reference::id(&change.certificate).expect("it went in");
                living.grow(given.store, *plan, id);
            }
        }
        Keeps::Withdrawn if number == 0 => living.store = given.store,
        _ => {}
    }
    Ok(())
}

/// All that is needed to ask again.
fn text(call: &Call) -> String {
    let lent = hex::text(&call.lent);
    format!("request: {}\nlent: {lent}", lines::of(&call.request))
}
