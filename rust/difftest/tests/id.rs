//! The id: the last 8 octets of SHA-256 with the signature's point type as 0.

use difftest::draft::Draft;
use difftest::plan::{Plan, SIGNATURE_LENGTH};
use difftest::random::Random;
use difftest::seed;
use difftest::sides::{self, Side};

fn id(side: Side, certificate: &[u8]) -> [u8; 8] {
    let answer = sides::id(side, certificate);
    assert_eq!(answer.number, 0);
    answer.id
}

/// The place of the signature's point type, behind its algorithm.
fn point_type_at(certificate: &[u8]) -> usize {
    certificate.len() - SIGNATURE_LENGTH + 1
}

/// One certificate has one id, however its signature's point is given; any
/// other change of the signature changes the id.
#[test]
fn signatures_point_type_does_not_count() {
    let seed = seed::take("ids");
    for case in 0..500 {
        let mut random = Random::for_case(seed, case);
        let mut certificate = Draft::of(&Plan::random(&mut random)).encode().octets();
        let at = point_type_at(&certificate);
        let taken_as_zero = {
            certificate[at] = 0;
            let digest = reference::sha256(&certificate);
            <[u8; 8]>::try_from(&digest[24..]).expect("8 octets")
        };
        for side in Side::ALL {
            for point_type in [0, 2, 3] {
                certificate[at] = point_type;
                assert_eq!(
                    id(side, &certificate),
                    taken_as_zero,
                    "{side:?}, seed {seed}, case {case}"
                );
            }
            let other = at + 1 + random.below(SIGNATURE_LENGTH - 2);
            certificate[other] ^= 1;
            assert_ne!(
                id(side, &certificate),
                taken_as_zero,
                "{side:?}, seed {seed}, case {case}"
            );
            certificate[other] ^= 1;
        }
    }
}
