//! Verdicts: only 1 is good, and the certificate's counts only where there is a
//! certificate.

use difftest::judgements::Verdicts;

use crate::by_hand::{number, scene};

#[test]
fn every_pair() {
    const SOME: [u8; 6] = [0, 1, 2, 3, 129, 255];
    for octet in 0..=255 {
        for other in SOME {
            for (message, certificate) in [(octet, other), (other, octet)] {
                let verdicts = Verdicts {
                    message,
                    certificate,
                };
                let asked = |carried| {
                    let mut scene = scene(carried);
                    scene.verdicts = verdicts;
                    number(scene)
                };
                let by_id = if message == 1 { 0 } else { 15 };
                assert_eq!(asked(false), by_id, "{verdicts:?}");
                let both = message == 1 && certificate == 1;
                assert_eq!(asked(true), if both { 0 } else { 15 }, "{verdicts:?}");
            }
        }
    }
}
