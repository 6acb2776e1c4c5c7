//! Requests about a message: signed by a certificate of the living store, or by
//! a new one below it, or on another store.

use super::living::{Living, Member, OTHER_STORES};
use crate::growth;
use crate::message::chain::Chain;
use crate::message::scene::{Made, Scene};
use crate::message::{broken_judgements, generate};
use crate::plan::{Permission, Plan, TICKET};
use crate::random::Random;
use crate::{breaks, broken_stores};

/// In one of so many requests on the living store it is a damaged copy.
const DAMAGED_COPIES: usize = 32;

pub fn made(living: &Living, random: &mut Random) -> Made {
    let signer = living.ticket(random).or(living.member(random));
    let Some(signer) = signer.filter(|_| !random.once_in(OTHER_STORES)) else {
        return generate::made(random);
    };
    let mut scene = below(signer, random);
    let count = random.pick(&[0, 0, 0, 0, 1, 1, 2]);
    let how = breaks::make(&mut scene, count, &broken_judgements::ALL, random);
    let mut made = scene.made(how, random);
    made.judgement.store = living.store.clone();
    if random.once_in(DAMAGED_COPIES) {
        broken_stores::damage(&mut made.judgement.store, random);
    }
    made
}

/// A message by a certificate that went in, or by a ticket that it issued.
fn below(member: &Member, random: &mut Random) -> Scene {
    let is_new = member.plan.kind != TICKET;
    let mut signer = match is_new {
        true => Plan {
            kind: TICKET,
            ..growth::below(&member.entry, random)
        },
        false => member.plan.clone(),
    };
    if signer.permissions.is_empty() {
        // It needs one to sign under, which its issuer may lack.
        signer.permissions.push(Permission {
            its_aid: 36,
            ssp: Vec::new(),
        });
    }
    let above = Vec::new();
    let mut scene = Scene::below(Chain { above, signer }, random);
    // A new one is not stored: named by id, it is unknown.
    scene.carried |= is_new && !random.once_in(8);
    if !is_new {
        scene.id = member.entry.id;
    }
    // The living store takes the place of the scene's own.
    scene.filled = 0;
    scene.verdicts.certificate = 1;
    scene
}
