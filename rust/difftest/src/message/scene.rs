//! A request about a message, made up at random.

use nattveldi::raw::Situation;

use super::chain::{self, Chain};
use super::differences::Difference;
use super::expect::Facts;
use super::layout::Layout;
use super::times::Times;
use super::{places, Location, Message, Signer, MOST_OCTETS};
use crate::draft::Draft;
use crate::entry::{self, Entry, Slots, HELD};
use crate::forest;
use crate::judgements::{Judgement, Verdicts};
use crate::random::Random;
use crate::sha256;
use crate::slot::SLOTS;
use crate::standing::Place;
use crate::wire::Wire;

/// A request to ask about.
#[derive(Clone, Debug)]
pub struct Made {
    pub judgement: Judgement,
    pub verdicts: Verdicts,
    pub facts: Facts,
    /// The message's octets with their marks, before anything was broken.
    pub wire: Wire,
    /// What is broken in it, for the report of a failure.
    pub how: Vec<&'static str>,
}

/// Breaks the octets of a request and says so in its facts.
pub type OctetBreak = fn(&mut Made, &mut Random);

/// What a request is made from.
#[derive(Clone, Debug)]
pub struct Scene {
    pub chain: Chain,
    /// Whether the message carries the signer's certificate.
    pub carried: bool,
    /// The signer's id where it is named by id.
    pub id: [u8; 8],
    /// The state of the signer's own slot, if it has one.
    pub stored: Option<u8>,
    /// How that slot differs from the signer's certificate.
    pub differences: Vec<Difference>,
    /// How many slots are filled, if not more are needed.
    pub filled: usize,
    pub times: Times,
    /// The caller's position.
    pub own: Place,
    /// That of the location header.
    pub location: Option<Place>,
    pub its_aid: u32,
    /// How many octets the message has, if not any number.
    pub length: Option<usize>,
    pub verdicts: Verdicts,
    pub octet_breaks: Vec<OctetBreak>,
}

impl Made {
    /// Writes the message again from what it says now.
    pub fn write_again(&mut self) {
        let message = &self.facts.message;
        let written = Layout::of(message).write();
        self.facts.places = written.places(message);
        self.facts.reading = Some(Ok(()));
        self.judgement.message = written.wire.octets.clone();
        self.wire = written.wire;
    }
}

impl Scene {
    /// A request that is accepted.
    pub fn sound(random: &mut Random) -> Scene {
        let length = random.pick(&[2, 2, 3, 3, 4, 4, 5, 6, 7, 8]);
        Scene::below(chain::made(length, random), random)
    }

    /// A request that is accepted if a chain is.
    pub fn below(chain: Chain, random: &mut Random) -> Scene {
        let carried = random.once_in(2);
        let rectangles = chain.signer.region.clone().unwrap_or_default();
        let place = places::inside(&rectangles, random);
        let located = random.once_in(2);
        let granted = &chain.signer.permissions;
        let any = random.below(SLOTS + 1);
        Scene {
            carried,
            id: forest::new_id(&chain.above, random),
            stored: (!carried || random.once_in(3)).then_some(HELD),
            differences: Vec::new(),
            filled: random.pick(&[0, 0, 4, 16, any, SLOTS]),
            times: Times::sound(&chain.signer, random),
            own: if located {
                places::anywhere(random)
            } else {
                place
            },
            location: located.then_some(place),
            its_aid: granted[random.below(granted.len())].its_aid,
            length: random.once_in(32).then_some(MOST_OCTETS),
            verdicts: verdicts(carried, random),
            octet_breaks: Vec::new(),
            chain,
        }
    }

    /// The place that counts.
    pub fn set_place(&mut self, place: Place) {
        match &mut self.location {
            Some(location) => *location = place,
            None => self.own = place,
        }
    }

    pub fn made(self, how: Vec<&'static str>, random: &mut Random) -> Made {
        let certificate = Draft::of(&self.chain.signer).encode().octets();
        let id = if self.carried {
            sha256::id(&certificate)
        } else {
            self.id
        };
        let signer = Entry::of(&self.chain.signer, id, HELD);
        let slots = self.slots(&signer, random);
        let message = self.message(id, random);
        let written = Layout::of(&message).write();
        let mut made = Made {
            judgement: Judgement {
                store: entry::store(&slots),
                message: written.wire.octets.clone(),
                situation: self.situation(),
            },
            verdicts: self.verdicts,
            facts: Facts {
                contents: Some(Ok(slots)),
                reading: Some(Ok(())),
                places: written.places(&message),
                message,
                certificate: self.carried.then_some(signer),
            },
            wire: written.wire,
            how,
        };
        for break_octets in &self.octet_breaks {
            break_octets(&mut made, random);
        }
        made
    }

    fn situation(&self) -> Situation {
        let (latitude, longitude) = self.own;
        Situation {
            now: self.times.now(),
            latitude,
            longitude,
            age: self.times.age,
        }
    }

    /// The chain, the signer's own slot and others, in random slots.
    fn slots(&self, signer: &Entry, random: &mut Random) -> Slots {
        let mut entries = self.chain.above.clone();
        entries.extend(self.stored.map(|state| self.stored(signer, state, random)));
        while entries.len() < self.filled {
            entries.push(Entry::neighbour(self.chain.signer.issuer, random));
        }
        entry::in_any_slots(entries, random)
    }

    fn stored(&self, signer: &Entry, state: u8, random: &mut Random) -> Entry {
        let mut stored = Entry {
            state,
            ..signer.clone()
        };
        for difference in &self.differences {
            difference(&mut stored, random);
        }
        stored
    }

    fn message(&self, id: [u8; 8], random: &mut Random) -> Message {
        let signer = if self.carried {
            Signer::Certificate(Box::new(self.chain.signer.clone()))
        } else {
            Signer::Id(id)
        };
        let mut message = Message::random(signer, self.times.generation, self.its_aid, random);
        message.expiration = self.times.expiration();
        message.location = self.location.map(|place| Location {
            place,
            elevation: random.array(),
        });
        if let Some(length) = self.length {
            fill(&mut message, length, random);
        }
        message
    }
}

/// With the longest payload that leaves the message no longer than that.
fn fill(message: &mut Message, length: usize, random: &mut Random) {
    message.payload = random.octets(length);
    loop {
        let octets = Layout::of(message).write().wire.octets.len();
        match octets.saturating_sub(length) {
            0 => return,
            more => message.payload.truncate(message.payload.len() - more),
        }
    }
}

/// Good where they count.
fn verdicts(carried: bool, random: &mut Random) -> Verdicts {
    let any = random.octet();
    Verdicts {
        message: 1,
        certificate: if carried {
            1
        } else {
            random.pick(&[0, 1, 2, 255, any])
        },
    }
}
