//! Questions of the withdrawal page, made up at random: a store, an id, a
//! second and a list. Each is asked as a list, a withdrawal and a page.

use crate::breaks::{self, Break};
use crate::broken_stores;
use crate::changes::Changed;
use crate::entry::{self, Entry, Slots, WITHDRAWN};
use crate::forest;
use crate::lists::{List, Listed};
use crate::outcome::{self, Contents};
use crate::random::Random;
use crate::slot::{SLOTS, STORE_LENGTH};
use crate::withdrawals::Withdrawal;

/// A question to ask.
pub struct Made {
    pub list: List,
    /// What is known of the store; nothing of a damaged one.
    pub contents: Option<Contents>,
    /// What is broken in it, for the report of a failure.
    pub how: Vec<&'static str>,
}

/// Every break and its name.
pub const BREAKS: [Break<Made>; 6] = [
    ("another id", other_id),
    ("an id of another length", other_id_length),
    ("a list of another length", other_list_length),
    ("a damaged store", damaged),
    ("a bad store", bad),
    ("a store of another length", |made, random| {
        broken_stores::resize(&mut made.list.store, random)
    }),
];

/// A question that is sound, most often, or has one or two breaks.
pub fn made(random: &mut Random) -> Made {
    let mut made = sound(random);
    let count = random.pick(&[0, 0, 0, 0, 0, 0, 1, 1, 2]);
    made.how = breaks::make(&mut made, count, &BREAKS, random);
    made
}

/// The id of a certificate in a valid store, held most often, and a second in
/// or near its period or that of another one.
pub fn sound(random: &mut Random) -> Made {
    let mut slots = forest::slots(random);
    let other = filled(&mut slots, random).clone();
    let asked = filled(&mut slots, random);
    if random.once_in(20) {
        asked.state = WITHDRAWN;
    }
    let near = if random.once_in(4) { &other } else { &*asked };
    let second = second(near, random);
    let list = List {
        id: asked.id.to_vec(),
        store: entry::store(&slots),
        second,
        list: random.octets(SLOTS),
    };
    Made {
        list,
        contents: Some(Ok(slots)),
        how: Vec::new(),
    }
}

fn filled<'a>(slots: &'a mut Slots, random: &mut Random) -> &'a mut Entry {
    let mut filled: Vec<&mut Entry> = slots.iter_mut().flatten().collect();
    let at = random.below(filled.len());
    filled.swap_remove(at)
}

/// Inside a period, at its ends, or one beyond them.
pub fn second(entry: &Entry, random: &mut Random) -> u32 {
    let second = |number: u64| u32::try_from(number).unwrap_or(u32::MAX);
    let (start, end) = (entry.start, second(entry.end));
    let last = second(entry.end - 1);
    let inside = random.between(start.into(), last.into()) as u32;
    let before = start.saturating_sub(1);
    random.pick(&[
        inside, inside, inside, start, start, last, last, before, end,
    ])
}

impl Made {
    pub fn withdrawal(&self) -> Withdrawal {
        Withdrawal {
            store: self.list.store.clone(),
            id: self.list.id.clone(),
        }
    }

    /// The input of the program `page`.
    pub fn page(&self) -> Vec<u8> {
        let List {
            store, id, second, ..
        } = &self.list;
        [&store[..], id, &second.to_be_bytes()].concat()
    }

    /// The paper's list, if it is known.
    pub fn listed(&self) -> Option<Listed> {
        let contents = self.contents.as_ref()?;
        Some(outcome::list(contents, &self.list))
    }

    /// The paper's store after the withdrawal, if it is known.
    pub fn withdrawn(&self) -> Option<Changed> {
        let contents = self.contents.as_ref()?;
        Some(outcome::withdraw(contents, &self.withdrawal()))
    }

    /// The paper's page, if it is known.
    pub fn paged(&self) -> Option<String> {
        let List {
            store, id, second, ..
        } = &self.list;
        if store.len() + id.len() != STORE_LENGTH + 8 {
            return Some("refused 1\n".into());
        }
        // Where one is as much longer as the other is short, the input is
        // another store and id.
        let contents = self.contents.as_ref().filter(|_| id.len() == 8)?;
        Some(outcome::page(contents, id, *second))
    }
}

/// Any id, almost the same one, or that of the empty slots.
fn other_id(made: &mut Made, random: &mut Random) {
    let any = random.array();
    let mut near: [u8; 8] = made.list.id[..].try_into().unwrap_or(any);
    near[random.below(8)] ^= 1 << random.below(8);
    made.list.id = random.pick(&[any, near, [0; 8]]).to_vec();
}

fn other_id_length(made: &mut Made, random: &mut Random) {
    let length = random.pick(&[0, 1, 7, 9, 16]);
    made.list.id.resize(length, 0);
}

fn other_list_length(made: &mut Made, random: &mut Random) {
    let length = random.pick(&[0, 1, 62, 63, 65, 66, 300]);
    made.list.list = random.octets(length);
}

/// Still valid, now and then.
fn damaged(made: &mut Made, random: &mut Random) {
    made.contents = None;
    broken_stores::damage(&mut made.list.store, random);
}

fn bad(made: &mut Made, random: &mut Random) {
    made.contents = Some(Err(2));
    broken_stores::set_padding(&mut made.list.store, random);
}
