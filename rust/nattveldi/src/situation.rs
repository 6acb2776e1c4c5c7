//! When and where a message is judged, and how old it may be.

use crate::place::Position;
use crate::raw;
use crate::refusal::Refusal;
use crate::time::Microseconds;

/// When and where a message is judged, and how old it may be.
///
/// ```
/// use nattveldi::{Age, Microseconds, Position, Situation};
///
/// let here = Position::from_degrees(64.15, -21.9)?;
/// let situation = Situation::new(Microseconds(694_700_001_000_000), here);
/// assert_eq!(situation.age(), Age::default());
/// let strict = situation.with_age(Age::from_microseconds(500_000)?);
/// assert_eq!((strict.now(), strict.position()), (situation.now(), here));
/// # Ok::<(), nattveldi::Refusal>(())
/// ```
#[derive(Clone, Copy, Debug, PartialEq, Eq, Hash)]
#[must_use]
pub struct Situation {
    now: Microseconds,
    position: Position,
    age: Age,
}

impl Situation {
    /// The time now, the caller's position, which is used where the message has
    /// no location, and the library's own default age.
    ///
    /// ```
    /// use nattveldi::{Microseconds, Position, Situation};
    ///
    /// let position = Position::new(0, 0)?;
    /// assert_eq!(Situation::new(Microseconds(7), position).now(), Microseconds(7));
    /// # Ok::<(), nattveldi::Refusal>(())
    /// ```
    pub const fn new(now: Microseconds, position: Position) -> Situation {
        Situation {
            now,
            position,
            age: Age::DEFAULT,
        }
    }

    /// The same with another allowed age.
    ///
    /// ```
    /// use nattveldi::{Age, Microseconds, Position, Situation};
    ///
    /// let minute = Age::from_microseconds(60_000_000)?;
    /// let situation = Situation::new(Microseconds(7), Position::new(0, 0)?).with_age(minute);
    /// assert_eq!(situation.age(), minute);
    /// # Ok::<(), nattveldi::Refusal>(())
    /// ```
    pub const fn with_age(self, age: Age) -> Situation {
        Situation { age, ..self }
    }

    /// The time now.
    ///
    /// ```
    /// # mod sample { include!(concat!(env!("CARGO_MANIFEST_DIR"), "/tests/sample/mod.rs")); }
    /// assert_eq!(sample::situation().now(), nattveldi::Microseconds(250_000_000));
    /// ```
    #[must_use]
    pub const fn now(&self) -> Microseconds {
        self.now
    }

    /// The caller's position.
    ///
    /// ```
    /// # mod sample { include!(concat!(env!("CARGO_MANIFEST_DIR"), "/tests/sample/mod.rs")); }
    /// assert_eq!(sample::situation().position().to_string(), "0.0000000, 0.0000000");
    /// ```
    #[must_use]
    pub const fn position(&self) -> Position {
        self.position
    }

    /// By how much a message's time may differ from now.
    ///
    /// ```
    /// # mod sample { include!(concat!(env!("CARGO_MANIFEST_DIR"), "/tests/sample/mod.rs")); }
    /// assert_eq!(sample::situation().age(), nattveldi::Age::default());
    /// ```
    #[must_use]
    pub const fn age(&self) -> Age {
        self.age
    }
}

/// The plain numbers, as the C functions take them.
impl From<Situation> for raw::Situation {
    fn from(situation: Situation) -> raw::Situation {
        raw::Situation {
            now: situation.now.0,
            latitude: situation.position.latitude(),
            longitude: situation.position.longitude(),
            age: situation.age.0,
        }
    }
}

/// A position or an age that is out of range is [`Refusal::BadCall`].
impl TryFrom<raw::Situation> for Situation {
    type Error = Refusal;

    fn try_from(situation: raw::Situation) -> Result<Situation, Refusal> {
        let position = Position::new(situation.latitude, situation.longitude)?;
        let age = Age::from_microseconds(situation.age)?;
        Ok(Situation::new(Microseconds(situation.now), position).with_age(age))
    }
}

/// By how much a message's generation time may differ from now, to either side.
///
/// 0 does not mean "not at all": it stands for the library's own default, two
/// seconds.
///
/// ```
/// use nattveldi::{Age, Refusal};
///
/// assert_eq!(Age::default(), Age::from_microseconds(0)?);
/// assert_ne!(Age::default(), Age::from_microseconds(2_000_000)?); // though it means the same
/// assert_eq!(Age::from_microseconds(600_000_001), Err(Refusal::BadCall));
/// # Ok::<(), Refusal>(())
/// ```
#[derive(Clone, Copy, Debug, Default, PartialEq, Eq, Hash)]
pub struct Age(u64);

impl Age {
    /// The most microseconds: ten minutes.
    pub const MOST_MICROSECONDS: u64 = 600_000_000;

    const DEFAULT: Age = Age(0);

    /// An age in microseconds; 0 stands for the library's own default.
    ///
    /// # Errors
    ///
    /// [`Refusal::BadCall`] for more than ten minutes.
    ///
    /// ```
    /// assert_eq!(nattveldi::Age::from_microseconds(500_000)?.microseconds(), 500_000);
    /// # Ok::<(), nattveldi::Refusal>(())
    /// ```
    pub const fn from_microseconds(microseconds: u64) -> Result<Age, Refusal> {
        if microseconds > Age::MOST_MICROSECONDS {
            return Err(Refusal::BadCall);
        }
        Ok(Age(microseconds))
    }

    /// The microseconds as they were given; 0 stands for the library's own
    /// default.
    ///
    /// ```
    /// assert_eq!(nattveldi::Age::default().microseconds(), 0);
    /// ```
    #[must_use]
    pub const fn microseconds(self) -> u64 {
        self.0
    }
}

#[cfg(test)]
mod tests {
    use super::*;

    const PLAIN: raw::Situation = raw::Situation {
        now: 7,
        latitude: 641_500_000,
        longitude: -219_000_000,
        age: 500_000,
    };

    #[test]
    fn plain_numbers_both_ways() {
        let situation = Situation::try_from(PLAIN).expect("in range");
        assert_eq!(situation.now(), Microseconds(7));
        assert_eq!(
            Ok(situation.position()),
            Position::new(641_500_000, -219_000_000)
        );
        assert_eq!(Ok(situation.age()), Age::from_microseconds(500_000));
        assert_eq!(raw::Situation::from(situation), PLAIN);
    }

    #[test]
    fn plain_numbers_out_of_range() {
        let mut cases = [PLAIN; 3];
        cases[0].latitude = 900_000_001;
        cases[1].longitude = -1_800_000_001;
        cases[2].age = 600_000_001;
        for plain in cases {
            assert_eq!(
                Situation::try_from(plain),
                Err(Refusal::BadCall),
                "{plain:?}"
            );
        }
    }
}
