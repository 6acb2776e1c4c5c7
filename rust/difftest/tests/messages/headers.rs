//! Headers that may be there or not, and payloads of all lengths.

use difftest::message::scene::Made;
use difftest::message::{Deviation, Location};
use difftest::plan::{Permission, MOST_INTX};
use difftest::random::Random;

use crate::by_hand::{scene, BOTH, NOW};
use crate::check::check;

fn made(carried: bool) -> Made {
    scene(carried).made(Vec::new(), &mut Random::new(1))
}

fn accepted(made: &mut Made, told: &str) {
    made.write_again();
    assert_eq!(check(made), Ok(0), "{told}");
}

/// With and without each: the answer is the paper's, places too.
#[test]
fn every_choice() {
    for carried in BOTH {
        for choice in 0..16 {
            let has = |bit: u8| choice & 1 << bit != 0;
            let mut made = made(carried);
            let message = &mut made.facts.message;
            message.deviation = has(0).then_some(Deviation {
                time: u64::MAX,
                octet: 255,
            });
            message.expiration = has(1).then_some(NOW as u32 + 1);
            message.location = has(2).then_some(Location {
                place: (-1, -1),
                elevation: [0xf0, 0],
            });
            message.digests = has(3).then(|| vec![[1, 2, 3], [4, 5, 6]]);
            accepted(&mut made, &format!("choice {choice}"));
        }
    }
}

/// So many that the length of the headers takes one octet, two, and all room.
#[test]
fn digests() {
    for carried in BOTH {
        for count in (0..60).chain([100, 300]) {
            let mut made = made(carried);
            made.facts.message.payload.clear();
            made.facts.message.digests = Some(vec![[0xff; 3]; count]);
            accepted(&mut made, &format!("{count} digests"));
        }
    }
}

#[test]
fn payloads() {
    for carried in BOTH {
        for length in [0, 1, 2, 126, 127, 128, 129, 255, 256, 1_000, 1_500] {
            let mut made = made(carried);
            made.facts.message.digests = None;
            made.facts.message.payload = vec![0x5a; length];
            accepted(&mut made, &format!("a payload of {length}"));
        }
    }
}

/// Up to 2,048 octets; a longer one is 3 whatever it holds.
#[test]
fn lengths() {
    for carried in BOTH {
        for (length, expected) in [(2_046, 0), (2_047, 0), (2_048, 0), (2_049, 3), (2_050, 3)] {
            let mut scene = scene(carried);
            scene.length = Some(length);
            let made = scene.made(Vec::new(), &mut Random::new(1));
            assert_eq!(made.judgement.message.len(), length);
            assert_eq!(check(&made), Ok(expected), "{length} octets");
        }
        for (length, expected) in [(0, 4), (2_048, 6), (2_049, 3), (100_000, 3)] {
            let mut made = made(carried);
            made.judgement.message = vec![0; length];
            made.facts.reading = Some(Err(if length == 0 { 4 } else { 6 }));
            assert_eq!(check(&made), Ok(expected), "{length} zeros");
        }
    }
}

/// As long as a certificate can be: 841 octets.
#[test]
fn the_longest_certificate() {
    let mut scene = scene(true);
    let signer = &mut scene.chain.signer;
    signer.name = vec![0xff; 32];
    signer.encryption_key = Some(signer.key.clone());
    signer.assurance = Some(255);
    signer.region = Some(vec![[2, -2, -2, 2]; 4]);
    signer.permissions = vec![
        Permission {
            its_aid: MOST_INTX,
            ssp: vec![0xff; 31],
        };
        16
    ];
    for issuer in &mut scene.chain.above {
        issuer.permissions.push(MOST_INTX);
    }
    scene.its_aid = MOST_INTX;
    let made = scene.made(Vec::new(), &mut Random::new(1));
    assert_eq!(made.facts.places.certificate.len(), 841);
    assert_eq!(check(&made), Ok(0));
}

/// A signature's point may be given in three ways, a key's in two.
#[test]
fn points() {
    for carried in BOTH {
        for point_type in [0, 2, 3] {
            for key_type in [2, 3] {
                let mut scene = scene(carried);
                scene.chain.signer.key.point_type = key_type;
                scene.chain.signer.signature.point_type = point_type;
                for issuer in &mut scene.chain.above {
                    issuer.parity = 3 - key_type;
                }
                let mut made = scene.made(Vec::new(), &mut Random::new(1));
                made.facts.message.signature.point_type = point_type;
                accepted(&mut made, &format!("{point_type}, key {key_type}"));
            }
        }
    }
}
