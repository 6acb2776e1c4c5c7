//! Messages of another time, and from another place.

use super::super::places;
use super::super::scene::Scene;
use super::super::times::{self, SECOND};
use crate::plan;
use crate::random::Random;

pub fn stale(scene: &mut Scene, random: &mut Random) {
    let limit = i128::from(times::limit(scene.times.age)) + 1;
    scene.times.delay = random.pick(&[limit, -limit]);
}

/// Also by so much that 32 or 64 bits cannot tell it from 0.
pub fn far(scene: &mut Scene, random: &mut Random) {
    let any = i128::from(random.next());
    let far = random.pick(&[1 << 31, 1 << 32, 1 << 63, any]);
    scene.times.delay = random.pick(&[far, -far]);
}

/// Now or the generation is as early or as late as can be.
pub fn extreme(scene: &mut Scene, random: &mut Random) {
    let end = random.pick(&[0, u64::MAX]);
    if random.once_in(2) {
        scene.times.generation = end;
    } else {
        scene.times.delay = i128::from(end) - i128::from(scene.times.generation);
    }
}

pub fn expired(scene: &mut Scene, random: &mut Random) {
    scene.times.expires_in = random.pick(&[Some(0), Some(0), Some(-1), Some(-100_000)]);
}

/// Now's second has more than 32 bits, and its last 32 come before the
/// expiration.
pub fn expired_far(scene: &mut Scene, random: &mut Random) {
    let second = u64::from(random.next() as u32);
    scene.times.generation = times::within((1 << 32) + second, random);
    scene.times.expires_in = Some(1 - (1 << 32));
}

/// At the end, or a microsecond before the start.
pub fn outside_period(scene: &mut Scene, random: &mut Random) {
    let (start, end) = scene.chain.signer.period.seconds();
    scene.times.generation = match random.below(2) {
        0 => (start * SECOND).saturating_sub(1),
        _ => end * SECOND,
    };
}

/// In the period only if seconds have no more than 32 bits.
pub fn outside_far(scene: &mut Scene, _: &mut Random) {
    scene.times.generation += (1 << 32) * SECOND;
}

/// The signer has a rectangle at least then.
pub fn outside_region(scene: &mut Scene, random: &mut Random) {
    let region = scene.chain.signer.region.get_or_insert_default();
    if region.is_empty() {
        region.push(plan::rectangle(random));
    }
    let rectangle = random.pick(region);
    scene.set_place(places::beyond(rectangle, random));
}
