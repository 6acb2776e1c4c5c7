//! Times: of generation, now, age and expiration, up to their ends.

use difftest::message::scene::Scene;
use difftest::message::times::{MOST_AGE, SECOND};
use difftest::plan::{Period, LATEST_END};

use crate::by_hand::{number, scene, BOTH};

/// A scene whose certificates last from second 0 as long as can be given.
fn lasting(carried: bool) -> Scene {
    let period = Period::StartAndDuration(0, 0x9fff);
    let mut scene = scene(carried);
    scene.chain.signer.period = period;
    for entry in &mut scene.chain.above {
        (entry.start, entry.end) = (0, LATEST_END);
    }
    scene
}

fn at(mut scene: Scene, generation: u64, now: u64, age: u64) -> u8 {
    scene.times.generation = generation;
    scene.times.delay = i128::from(now) - i128::from(generation);
    scene.times.age = age;
    number(scene)
}

/// Numbers at which something changes, with their neighbours.
fn around(numbers: &[u64]) -> Vec<u64> {
    let near = |&n: &u64| [n.saturating_sub(1), n, n.saturating_add(1)];
    numbers.iter().flat_map(near).collect()
}

/// Generation and now at their ends and around powers of two, with every age at
/// an edge: differences are exact, and a second that no period has is 12.
#[test]
fn extremes() {
    let end = Period::StartAndDuration(0, 0x9fff).seconds().1 * SECOND;
    let times = around(&[0, DEFAULT, MOST_AGE, 1 << 32, 1 << 63, end, u64::MAX]);
    let ages = around(&[0, DEFAULT, MOST_AGE, 1 << 32, u64::MAX]);
    for carried in BOTH {
        for &generation in &times {
            for &now in &times {
                for &age in &ages {
                    let given = at(lasting(carried), generation, now, age);
                    let expected = expected(generation, now, age, end);
                    assert_eq!(given, expected, "{generation}, {now}, {age}");
                }
            }
        }
    }
}

const DEFAULT: u64 = 2_000_000;

fn expected(generation: u64, now: u64, age: u64, end: u64) -> u8 {
    let difference = i128::from(generation) - i128::from(now);
    let limit = if age == 0 { DEFAULT } else { age };
    if age > MOST_AGE {
        1
    } else if difference.abs() > limit.into() {
        14
    } else if generation >= end {
        12
    } else {
        0
    }
}

/// "Now 10,000,000, age 0: 8,000,000 and 12,000,000 pass; 7,999,999 and
/// 12,000,001 are 14."
#[test]
fn ages_of_the_paper() {
    for carried in BOTH {
        for (generation, expected) in [
            (8_000_000, 0),
            (12_000_000, 0),
            (7_999_999, 14),
            (12_000_001, 14),
        ] {
            let given = at(lasting(carried), generation, 10_000_000, 0);
            assert_eq!(given, expected, "{generation}");
        }
    }
}

/// An expiration at or before now's whole second is 14, whatever the generation
/// was; now's second may have more than 32 bits.
#[test]
fn expirations() {
    const FAR: u64 = 1 << 32;
    for carried in BOTH {
        for (now, expires_in, expected) in [
            (500 * SECOND, 0, 14),
            (500 * SECOND, 1, 0),
            (500 * SECOND, -1, 14),
            (501 * SECOND - 1, 0, 14),
            (501 * SECOND - 1, 1, 0),
            (0, 0, 14),
            (0, 1, 0),
            ((FAR - 2) * SECOND, 1, 0),
            ((FAR - 1) * SECOND - 1, 1, 0),
            ((FAR - 1) * SECOND, 0, 14),
            ((FAR - 1) * SECOND, -1, 14),
            ((FAR + 5) * SECOND, 1 - FAR as i64, 14),
            ((FAR + 5) * SECOND, -6, 14),
        ] {
            for earlier in [0, SECOND, 2 * SECOND] {
                let mut scene = lasting(carried);
                scene.times.expires_in = Some(expires_in);
                let generation = now.saturating_sub(earlier);
                let given = at(scene, generation, now, 0);
                let told = format!("{now}, expires in {expires_in}, {earlier} earlier");
                assert_eq!(given, expected, "{told}");
            }
        }
    }
}

/// "Period 200 to 300: 299 in, 300 out", by the second of the generation, not
/// by that of now.
#[test]
fn ends_of_periods() {
    for carried in BOTH {
        for (generation, expected) in [
            (0, 12),
            (200 * SECOND - 1, 12),
            (200 * SECOND, 0),
            (299 * SECOND, 0),
            (300 * SECOND - 1, 0),
            (300 * SECOND, 12),
            ((1 << 32) * SECOND + 250 * SECOND, 12),
        ] {
            for later in [0, 1, 100 * SECOND] {
                let mut scene = lasting(carried);
                scene.chain.signer.period = Period::StartAndEnd(200, 300);
                let given = at(scene, generation, generation + later, MOST_AGE);
                assert_eq!(given, expected, "{generation}, now {later} later");
            }
        }
    }
}
