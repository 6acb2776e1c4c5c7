//! Faults of the layout, each with its number.

use difftest::hex;
use difftest::message::broken_layouts;
use difftest::message::scene::Scene;
use difftest::random::Random;
use difftest::seed;

use crate::check::check;

const CASES: u64 = 300;

/// Each fault in messages of all sorts, by id and with a certificate.
#[test]
fn every_fault() {
    let seed = seed::take("faulty messages");
    for (how, fault) in broken_layouts::ALL {
        for case in 0..CASES {
            let mut random = Random::for_case(seed, case);
            let mut sound = Scene::sound(&mut random);
            sound.length = None;
            let mut made = sound.made(vec![how], &mut random);
            let (octets, number) = fault(&made.facts.message, &mut random);
            made.judgement.message = octets;
            made.facts.reading = Some(Err(number));
            let message = hex::text(&made.judgement.message);
            let replay = format!("DIFFTEST_SEED={seed}, case {case}, {how}: {message}");
            assert_eq!(check(&made), Ok(number), "{replay}");
        }
    }
}
