//! When a message was generated, when it is judged, how old it may be, and when
//! it expires.

use crate::plan::Plan;
use crate::random::Random;

/// Microseconds of a second.
pub const SECOND: u64 = 1_000_000;
/// What the age 0 stands for.
pub const DEFAULT_AGE: u64 = 2_000_000;
pub const MOST_AGE: u64 = 600_000_000;

/// Times that hang together, so that one can be moved without the others.
#[derive(Clone, Debug)]
pub struct Times {
    pub generation: u64,
    /// By how much now is later than the generation.
    pub delay: i128,
    pub age: u64,
    /// By how many seconds the expiration is later than now's second.
    pub expires_in: Option<i64>,
}

impl Times {
    /// In a signer's period, fresh and not expired.
    pub fn sound(signer: &Plan, random: &mut Random) -> Times {
        let (start, end) = signer.period.seconds();
        let generation = within(second_in(start, end, random), random);
        let age = age(random);
        let later = 1 + random.below(100_000) as i64;
        Times {
            generation,
            delay: delay(limit(age) as i64, random),
            age,
            expires_in: random.pick(&[None, None, Some(1), Some(2), Some(later)]),
        }
    }

    pub fn now(&self) -> u64 {
        let now = i128::from(self.generation) + self.delay;
        now.clamp(0, u64::MAX.into()) as u64
    }

    /// The expiration; none where it is to come but has more than 32 bits.
    pub fn expiration(&self) -> Option<u32> {
        let later = self.expires_in?;
        let second = i128::from(self.now() / SECOND) + i128::from(later);
        let is_past = later <= 0;
        match u32::try_from(second) {
            Ok(second) => Some(second),
            Err(_) if is_past && second < 0 => Some(0),
            Err(_) => is_past.then_some(u32::MAX),
        }
    }
}

/// By how much the times may differ.
pub fn limit(age: u64) -> u64 {
    if age == 0 {
        DEFAULT_AGE
    } else {
        age
    }
}

fn age(random: &mut Random) -> u64 {
    let any = 1 + random.below(MOST_AGE as usize) as u64;
    random.pick(&[0, 0, 1, 2, 1_000, DEFAULT_AGE, any, MOST_AGE - 1, MOST_AGE])
}

/// Nothing, one, all that is allowed, or something between; to either side.
fn delay(most: i64, random: &mut Random) -> i128 {
    let any = random.between(0, most);
    let delay = random.pick(&[0, 1, any, any, most - 1, most]);
    random.pick(&[delay, -delay]).into()
}

/// A second of a period, often its first or its last.
fn second_in(start: u64, end: u64, random: &mut Random) -> u64 {
    let any = random.between(start as i64, end as i64 - 1) as u64;
    random.pick(&[start, any, any, end - 1])
}

/// A microsecond of a second, often its first or its last.
pub fn within(second: u64, random: &mut Random) -> u64 {
    let any = random.below(SECOND as usize) as u64;
    second * SECOND + random.pick(&[0, any, SECOND - 1])
}
