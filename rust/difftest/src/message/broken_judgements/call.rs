//! Arguments and stores that are refused before the message is looked at.

use super::super::places;
use super::super::scene::Scene;
use super::super::times::MOST_AGE;
use crate::broken_stores;
use crate::random::Random;

/// Whether the message has a location or not.
pub fn position(scene: &mut Scene, random: &mut Random) {
    scene.own = places::out_of_range(random);
}

pub fn age(scene: &mut Scene, random: &mut Random) {
    scene.times.age = random.pick(&[
        MOST_AGE + 1,
        MOST_AGE + 2,
        u64::from(u32::MAX),
        1 << 32,
        1 << 63,
        u64::MAX,
    ]);
}

pub fn store_length(scene: &mut Scene, _: &mut Random) {
    scene
        .octet_breaks
        .push(|made, random| broken_stores::resize(&mut made.judgement.store, random));
}

/// Still valid, now and then.
pub fn damaged_store(scene: &mut Scene, _: &mut Random) {
    scene.octet_breaks.push(|made, random| {
        made.facts.contents = None;
        broken_stores::damage(&mut made.judgement.store, random);
    });
}

pub fn bad_store(scene: &mut Scene, _: &mut Random) {
    scene.octet_breaks.push(|made, random| {
        made.facts.contents = Some(Err(2));
        broken_stores::set_padding(&mut made.judgement.store, random);
    });
}
