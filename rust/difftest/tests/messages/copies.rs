//! Certificates that a message carries and a store has already.

use difftest::entry::{HELD, WITHDRAWN};
use difftest::message::differences;
use difftest::message::scene::Scene;
use difftest::random::Random;
use difftest::seed;

use crate::by_hand::{number, scene};
use crate::check::check;

const CASES: u64 = 200;

/// The number, and whether the stored record is another one.
fn asked(mut scene: Scene, state: u8, case: u64, how: &'static str) -> (u8, bool) {
    scene.carried = true;
    scene.stored = Some(state);
    let made = scene.made(vec![how], &mut Random::new(case));
    let number = check(&made).unwrap_or_else(|said| panic!("{said}, {how}"));
    let Some(Ok(slots)) = &made.facts.contents else {
        unreachable!("nothing is broken")
    };
    let carried = made.facts.certificate.expect("a certificate");
    let stored = slots.iter().flatten().find(|entry| entry.id == carried.id);
    let mut stored = stored.expect("a stored record").clone();
    stored.state = carried.state;
    (number, stored != carried)
}

/// A record that differs in one field is 9, withdrawn it is 8; an equal one
/// changes nothing. Each difference is one in most cases.
#[test]
fn one_field_differs() {
    let seed = seed::take("stored copies");
    for (how, difference) in differences::ALL {
        let mut differing = 0;
        for case in 0..CASES {
            let replay = format!("DIFFTEST_SEED={seed}, case {case}, {how}");
            let mut sound = Scene::sound(&mut Random::for_case(seed, case));
            sound.verdicts.certificate = 1;
            assert_eq!(
                asked(sound.clone(), HELD, case, how),
                (0, false),
                "{replay}"
            );
            sound.differences.push(difference);
            let (number, differs) = asked(sound.clone(), HELD, case, how);
            assert_eq!(number, if differs { 9 } else { 0 }, "{replay}");
            assert_eq!(asked(sound, WITHDRAWN, case, how).0, 8, "{replay}");
            differing += u64::from(differs);
        }
        assert!(4 * differing >= CASES, "{how}: {differing} of {CASES}");
    }
}

/// Named by id, a record counts as it is stored, whatever the certificate said.
#[test]
fn a_record_by_id() {
    let mut scene = scene(false);
    scene.differences.push(|entry, _| entry.key = [0xcc; 32]);
    assert_eq!(number(scene), 0);
}

/// A certificate has one id however its signature's point is given, so that the
/// stored copy is found; the verdict on it is asked still.
#[test]
fn signatures_point_type_does_not_count() {
    for state in [HELD, WITHDRAWN] {
        for point_type in [0, 2, 3] {
            let mut scene = scene(true);
            scene.stored = Some(state);
            scene.chain.signer.signature.point_type = point_type;
            let expected = if state == HELD { 0 } else { 8 };
            assert_eq!(number(scene.clone()), expected, "{point_type}");
            scene.verdicts.certificate = 0;
            let expected = if state == HELD { 15 } else { 8 };
            assert_eq!(number(scene), expected, "{point_type}");
        }
    }
}
