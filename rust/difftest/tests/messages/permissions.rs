//! The its_aid of a message must be among its signer's own permissions.

use difftest::message::scene::Scene;
use difftest::plan::MOST_INTX;

use crate::by_hand::{number, permission, scene, BOTH};

/// A signer with these permissions below issuers that have all of them, and
/// some more.
fn with(its_aids: &[u32], carried: bool) -> Scene {
    let mut scene = scene(carried);
    let permissions = its_aids.iter().map(|&its_aid| permission(its_aid));
    scene.chain.signer.permissions = permissions.collect();
    for issuer in &mut scene.chain.above {
        issuer.permissions = [its_aids, &[1_000, 0, 37]].concat();
    }
    scene
}

fn asked(mut scene: Scene, its_aid: u32) -> u8 {
    scene.its_aid = its_aid;
    number(scene)
}

/// Wherever it stands among them; the issuers' do not count.
#[test]
fn among_the_signers() {
    const LIST: [u32; 7] = [36, 127, 128, 16_384, 2_097_152, MOST_INTX, 36];
    for carried in BOTH {
        for count in 0..=LIST.len() {
            let list = &LIST[..count];
            for its_aid in LIST.into_iter().chain([0, 37, 1_000, 5_000]) {
                let expected = if list.contains(&its_aid) { 0 } else { 11 };
                let given = asked(with(list, carried), its_aid);
                assert_eq!(given, expected, "{its_aid} of {list:?}");
            }
        }
    }
}

/// Of sixteen, the most that there are.
#[test]
fn sixteen() {
    let list: Vec<u32> = (100..113).collect();
    let signers = [&list[..], &[1_000, 0, 37]].concat();
    for carried in BOTH {
        let mut scene = with(&list, carried);
        let permissions = signers.iter().map(|&its_aid| permission(its_aid));
        scene.chain.signer.permissions = permissions.collect();
        for &its_aid in &signers {
            assert_eq!(asked(scene.clone(), its_aid), 0, "{its_aid}");
        }
        assert_eq!(asked(scene, 113), 11);
    }
}

/// By id those count that are stored.
#[test]
fn as_stored() {
    let mut scene = with(&[36], false);
    scene
        .differences
        .push(|entry, _| entry.permissions = vec![37]);
    assert_eq!(asked(scene.clone(), 37), 0);
    assert_eq!(asked(scene, 36), 11);
}
