//! When: points in time as the library counts them, in TAI since 2004-01-01
//! 00:00:00 UTC, and as the system's clock does.

use core::error::Error;
use core::fmt;

/// A second, counted in TAI since 2004-01-01 00:00:00 UTC.
///
/// With the feature `std` it is made from a `SystemTime` and gives one back. That
/// counts UTC without leap seconds, which are put in or left out by
/// [`leap`](crate::leap): no `SystemTime` gives a leap second, and 23:59:60
/// becomes the 00:00:00 after it, as POSIX has it.
///
/// ```
/// use nattveldi::{Microseconds, Second};
/// # #[cfg(feature = "std")]
/// use std::time::{Duration, SystemTime, UNIX_EPOCH};
///
/// let second = Second::try_from(Microseconds(694_656_005_250_000))?;
/// assert_eq!(second, Second(694_656_005));
/// assert_eq!(second.to_string(), "694656005");
/// # #[cfg(feature = "std")] {
///
/// // `date -u -d 2026-01-05 +%s`
/// let date = UNIX_EPOCH + Duration::from_secs(1_767_571_200);
/// assert_eq!(Second::try_from(date)?, second);
/// assert_eq!(SystemTime::from(second), date);
/// # }
/// # Ok::<(), nattveldi::TimeOutOfRange>(())
/// ```
#[derive(Clone, Copy, Debug, Default, PartialEq, Eq, PartialOrd, Ord, Hash)]
pub struct Second(pub u32);

/// A point in time in microseconds, counted in TAI since 2004-01-01 00:00:00
/// UTC.
///
/// With the feature `std` it is made from a `SystemTime` and gives one back, with
/// leap seconds as [`Second`] has them.
///
/// ```
/// use nattveldi::{Microseconds, Second};
///
/// let time = Microseconds::from(Second(250));
/// assert_eq!(time, Microseconds(250_000_000));
/// assert_eq!(time.to_string(), "250000000");
/// # #[cfg(feature = "std")]
/// let now = Microseconds::try_from(std::time::SystemTime::now())?;
/// # #[cfg(feature = "std")]
/// assert!(now > time);
/// # Ok::<(), nattveldi::TimeOutOfRange>(())
/// ```
#[derive(Clone, Copy, Debug, Default, PartialEq, Eq, PartialOrd, Ord, Hash)]
pub struct Microseconds(pub u64);

impl Microseconds {
    /// So many are a second.
    pub const A_SECOND: u64 = 1_000_000;
}

impl From<Second> for Microseconds {
    fn from(second: Second) -> Microseconds {
        Microseconds(u64::from(second.0) * Microseconds::A_SECOND)
    }
}

/// The second in which a point in time lies.
impl TryFrom<Microseconds> for Second {
    type Error = TimeOutOfRange;

    fn try_from(time: Microseconds) -> Result<Second, TimeOutOfRange> {
        let second = time.0 / Microseconds::A_SECOND;
        second.try_into().map(Second).map_err(|_| TimeOutOfRange)
    }
}

impl From<Second> for u64 {
    fn from(second: Second) -> u64 {
        second.0.into()
    }
}

impl From<Microseconds> for u64 {
    fn from(time: Microseconds) -> u64 {
        time.0
    }
}

impl fmt::Display for Second {
    fn fmt(&self, f: &mut fmt::Formatter<'_>) -> fmt::Result {
        self.0.fmt(f)
    }
}

impl fmt::Display for Microseconds {
    fn fmt(&self, f: &mut fmt::Formatter<'_>) -> fmt::Result {
        self.0.fmt(f)
    }
}

/// A time that another type of time cannot say.
///
/// ```
/// use nattveldi::{Microseconds, Second};
///
/// let error = Second::try_from(Microseconds(u64::MAX)).unwrap_err();
/// assert_eq!(error.to_string(), "a time before 2004, or too late for its type");
/// ```
#[derive(Clone, Copy, Debug, PartialEq, Eq)]
#[non_exhaustive]
pub struct TimeOutOfRange;

impl fmt::Display for TimeOutOfRange {
    fn fmt(&self, f: &mut fmt::Formatter<'_>) -> fmt::Result {
        f.write_str("a time before 2004, or too late for its type")
    }
}

impl Error for TimeOutOfRange {}

/// The system's clock.
#[cfg(feature = "std")]
mod system {
    use std::time::{Duration, SystemTime, UNIX_EPOCH};

    use super::{Microseconds, Second, TimeOutOfRange};
    use crate::leap::{self, Utc, SECONDS_A_DAY};

    /// 2004-01-01 00:00:00 on the system's clock.
    const START: Duration = Duration::from_secs(1_072_915_200);

    /// What is less than a microsecond is dropped.
    impl TryFrom<SystemTime> for Microseconds {
        type Error = TimeOutOfRange;

        fn try_from(time: SystemTime) -> Result<Microseconds, TimeOutOfRange> {
            let since_1970 = time.duration_since(UNIX_EPOCH).ok();
            let since_start = since_1970.and_then(|since| since.checked_sub(START));
            since_start.and_then(counted).ok_or(TimeOutOfRange)
        }
    }

    /// With the leap seconds until then.
    fn counted(since_start: Duration) -> Option<Microseconds> {
        let seconds = since_start.as_secs();
        let tai = leap::tai(Utc {
            day: seconds / SECONDS_A_DAY,
            second: seconds % SECONDS_A_DAY,
        })?;
        let whole = tai.checked_mul(Microseconds::A_SECOND)?;
        let time = whole.checked_add(since_start.subsec_micros().into())?;
        Some(Microseconds(time))
    }

    impl TryFrom<SystemTime> for Second {
        type Error = TimeOutOfRange;

        fn try_from(time: SystemTime) -> Result<Second, TimeOutOfRange> {
            Microseconds::try_from(time)?.try_into()
        }
    }

    impl TryFrom<Microseconds> for SystemTime {
        type Error = TimeOutOfRange;

        fn try_from(time: Microseconds) -> Result<SystemTime, TimeOutOfRange> {
            let rest = Duration::from_micros(time.0 % Microseconds::A_SECOND);
            let since_1970 = since_1970(time.0 / Microseconds::A_SECOND) + rest;
            UNIX_EPOCH.checked_add(since_1970).ok_or(TimeOutOfRange)
        }
    }

    impl From<Second> for SystemTime {
        fn from(second: Second) -> SystemTime {
            UNIX_EPOCH + since_1970(second.into())
        }
    }

    /// Without the leap seconds until then.
    fn since_1970(tai: u64) -> Duration {
        let utc = leap::utc(tai);
        START + Duration::from_secs(utc.day * SECONDS_A_DAY + utc.second)
    }

    #[cfg(test)]
    mod tests {
        use super::*;

        fn clock(seconds: u64) -> SystemTime {
            UNIX_EPOCH + Duration::from_secs(seconds)
        }

        /// The clock is that of GNU `date -u`; the leap seconds are counted by
        /// hand from the list of IERS Bulletin C.
        #[test]
        fn dates_both_ways() {
            for (date, tai) in [
                (1_072_915_200, 0),           // 2004-01-01 00:00:00
                (1_136_073_599, 63_158_399),  // 2005-12-31 23:59:59
                (1_136_073_600, 63_158_401),  // 2006-01-01 00:00:00
                (1_483_228_799, 410_313_603), // 2016-12-31 23:59:59
                (1_483_228_800, 410_313_605), // 2017-01-01 00:00:00
                (1_767_571_200, 694_656_005), // 2026-01-05 00:00:00
            ] {
                assert_eq!(Second::try_from(clock(date)), Ok(Second(tai)), "{date}");
                assert_eq!(SystemTime::from(Second(tai)), clock(date), "{tai}");
                let time = Microseconds(u64::from(tai) * 1_000_000 + 250_000);
                let date = clock(date) + Duration::from_micros(250_000);
                assert_eq!(Microseconds::try_from(date), Ok(time));
                assert_eq!(SystemTime::try_from(time), Ok(date));
            }
        }

        /// 23:59:60 at the end of 2016 is 00:00:00 of 2017 on the clock.
        #[test]
        fn a_leap_second_is_the_next_second() {
            let new_year = clock(1_483_228_800);
            assert_eq!(SystemTime::from(Second(410_313_604)), new_year);
            assert_eq!(SystemTime::from(Second(410_313_605)), new_year);
            let half = Duration::from_millis(500);
            let time = Microseconds(410_313_604_500_000);
            assert_eq!(SystemTime::try_from(time), Ok(new_year + half));
        }

        #[test]
        fn what_is_less_than_a_microsecond_is_dropped() {
            let date = clock(1_072_915_200) + Duration::from_nanos(1_999);
            assert_eq!(Microseconds::try_from(date), Ok(Microseconds(1)));
        }

        /// 4,294,967,295 TAI seconds are 4,294,967,290 of the clock and the 5
        /// leap seconds.
        #[test]
        fn out_of_range() {
            for early in [clock(1_072_915_199), clock(0), UNIX_EPOCH - START] {
                assert_eq!(Microseconds::try_from(early), Err(TimeOutOfRange));
                assert_eq!(Second::try_from(early), Err(TimeOutOfRange));
            }
            let last = clock(1_072_915_200 + 4_294_967_290);
            assert_eq!(Second::try_from(last), Ok(Second(u32::MAX)));
            let after = last + Duration::from_secs(1);
            assert_eq!(Second::try_from(after), Err(TimeOutOfRange));
            assert!(Microseconds::try_from(after).is_ok());
            let late = clock(1_072_915_200 + u64::MAX / 1_000_000);
            assert_eq!(Microseconds::try_from(late), Err(TimeOutOfRange));
        }
    }
}

#[cfg(test)]
mod tests {
    use super::*;

    #[test]
    fn the_second_of_a_time() {
        let second = |time| Second::try_from(Microseconds(time));
        assert_eq!(second(999_999), Ok(Second(0)));
        assert_eq!(second(1_000_000), Ok(Second(1)));
        assert_eq!(second(4_294_967_295_999_999), Ok(Second(u32::MAX)));
        assert_eq!(second(4_294_967_296_000_000), Err(TimeOutOfRange));
    }
}
