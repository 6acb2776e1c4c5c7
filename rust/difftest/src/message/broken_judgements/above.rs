//! Chains above the signer that do not lead to a root.

use super::super::scene::Scene;
use crate::broken_admissions;
use crate::broken_chains;
use crate::entry::Entry;
use crate::plan::{AUTHORITY, ROOT};
use crate::random::Random;

/// Any break, at any certificate above the signer.
pub fn one_break(scene: &mut Scene, random: &mut Random) {
    let above = &mut scene.chain.above;
    let Some(last) = above.last().map(|issuer| issuer.id) else {
        return;
    };
    let (_, break_chain) = random.pick(&broken_chains::ALL);
    let at = random.below(above.len());
    break_chain(above, at, random);
    // The issuer may have another id now.
    if let Some(issuer) = above.last().filter(|_| last == scene.chain.signer.issuer) {
        scene.chain.signer.issuer = issuer.id;
    }
}

pub fn two_breaks(scene: &mut Scene, random: &mut Random) {
    one_break(scene, random);
    one_break(scene, random);
}

/// The issuer lacks a permission, or is narrower by one in time or place.
pub fn less(scene: &mut Scene, random: &mut Random) {
    let its_aid = scene.its_aid;
    let (start, end) = scene.chain.signer.period.seconds();
    let Some(issuer) = scene.chain.above.last_mut() else {
        return;
    };
    match random.below(4) {
        0 => issuer.permissions.retain(|&other| other != its_aid),
        1 if start + 1 < issuer.end && start < u32::MAX.into() => issuer.start = start as u32 + 1,
        2 if u64::from(issuer.start) + 1 < end => issuer.end = end - 1,
        _ => smaller(issuer, random),
    }
}

/// Each rectangle has an edge moved inwards by one, where that leaves one.
fn smaller(issuer: &mut Entry, random: &mut Random) {
    let edge = random.below(4);
    let inwards = if edge == 0 || edge == 3 { -1 } else { 1 };
    for rectangle in &mut issuer.rectangles {
        *rectangle = broken_admissions::moved(*rectangle, edge, inwards);
    }
}

/// Almost the issuer, zero, or none of the chain is stored.
pub fn unknown(scene: &mut Scene, random: &mut Random) {
    match random.below(3) {
        0 => scene.chain.signer.issuer[random.below(8)] ^= 1 << random.below(8),
        1 => scene.chain.signer.issuer = [0; 8],
        _ => scene.chain.above.clear(),
    }
}

/// The root gets others above it that have what it has; then it may be missing.
pub fn too_long(scene: &mut Scene, random: &mut Random) {
    let above = &mut scene.chain.above;
    let length = random.pick(&[9, 9, 9, 10, 12, 20]);
    while !above.is_empty() && above.len() + 1 < length {
        let id = random.array();
        let root = Entry {
            id,
            kind: ROOT,
            issuer: [0; 8],
            ..above[0].clone()
        };
        above[0].kind = AUTHORITY;
        above[0].issuer = id;
        above.insert(0, root);
    }
    // The eighth certificate has no issuer then, or one further up.
    if above.len() > 1 && random.once_in(4) {
        above.remove(0);
    }
}

/// The root is an authority below one of those that it is above, which all have
/// what it has.
pub fn ring(scene: &mut Scene, random: &mut Random) {
    let above = &mut scene.chain.above;
    if above.is_empty() {
        return;
    }
    let model = above[random.below(above.len())].clone();
    for entry in above.iter_mut() {
        *entry = Entry {
            id: entry.id,
            issuer: entry.issuer,
            kind: AUTHORITY,
            ..model.clone()
        };
    }
    above[0].issuer = model.id;
}
