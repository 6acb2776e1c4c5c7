//! Signers that are not stored as they should be, may not sign, or did not.

use super::super::differences;
use super::super::scene::Scene;
use super::super::Signer;
use crate::entry::{HELD, WITHDRAWN};
use crate::plan::{AUTHORITY, MOST_INTX, ROOT};
use crate::random::Random;

/// Which a certificate that the message carries need not be.
pub fn not_stored(scene: &mut Scene, _: &mut Random) {
    scene.stored = None;
}

pub fn withdrawn(scene: &mut Scene, _: &mut Random) {
    scene.stored = Some(WITHDRAWN);
}

/// Which counts only if the message carries a certificate.
pub fn different(scene: &mut Scene, random: &mut Random) {
    scene.carried |= random.once_in(2);
    let (_, difference) = random.pick(&differences::ALL);
    scene.differences.push(difference);
    scene.stored = Some(random.pick(&[HELD, HELD, HELD, WITHDRAWN]));
}

/// The id differs by a bit from the one that is stored, or is that of the empty
/// slots.
pub fn almost(scene: &mut Scene, _: &mut Random) {
    scene.octet_breaks.push(|made, random| {
        if let Signer::Id(id) = &mut made.facts.message.signer {
            let mut near = *id;
            near[random.below(8)] ^= 1 << random.below(8);
            *id = random.pick(&[near, near, [0; 8]]);
            made.write_again();
        }
    });
}

pub fn no_ticket(scene: &mut Scene, random: &mut Random) {
    scene.chain.signer.kind = random.pick(&[AUTHORITY, ROOT]);
}

pub fn not_permitted(scene: &mut Scene, random: &mut Random) {
    let almost = scene.its_aid ^ 1 << random.below(28);
    scene.its_aid = random.pick(&[almost, almost, 0, MOST_INTX]);
}

pub fn bad_verdict(scene: &mut Scene, random: &mut Random) {
    let any = random.octet();
    scene.verdicts.message = random.pick(&[0, 2, 129, 255, any]);
}

/// Which counts only if the message carries a certificate.
pub fn bad_certificate(scene: &mut Scene, random: &mut Random) {
    let any = random.octet();
    scene.verdicts.certificate = random.pick(&[0, 2, 129, 255, any]);
}
