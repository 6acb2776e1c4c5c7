//! Random requests about messages: with no break, one, or several.

use super::broken_judgements;
use super::scene::{Made, Scene};
use crate::breaks;
use crate::random::Random;

/// A request with no break, or with up to three.
pub fn made(random: &mut Random) -> Made {
    let count = random.pick(&[0, 0, 0, 1, 1, 1, 1, 2, 2, 3]);
    let mut scene = Scene::sound(random);
    let how = breaks::make(&mut scene, count, &broken_judgements::ALL, random);
    scene.made(how, random)
}
