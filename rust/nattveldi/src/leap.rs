//! Leap seconds since 2004. TAI seconds count them, UTC puts each of them at
//! the end of the day before these dates, as 23:59:60.

/// Days since 2004-01-01: 2006-01-01, 2009-01-01, 2012-07-01, 2015-07-01 and
/// 2017-01-01. No later one is announced.
const DAYS_AFTER: [u64; 5] = [731, 1_827, 3_104, 4_199, 4_749];

/// A day has so many seconds, and one more if it ends with a leap second.
pub const SECONDS_A_DAY: u64 = 86_400;

/// A second of UTC.
///
/// ```
/// use nattveldi::leap::{tai, utc, Utc};
///
/// let new_year = Utc { day: 731, second: 0 }; // 2006-01-01 00:00:00
/// assert_eq!(tai(new_year), Some(731 * 86_400 + 1)); // one leap second had passed
/// assert_eq!(utc(731 * 86_400), Utc { day: 730, second: 86_400 }); // 23:59:60
/// ```
#[derive(Clone, Copy, Debug, PartialEq, Eq, PartialOrd, Ord, Hash)]
pub struct Utc {
    /// The day since 2004-01-01.
    pub day: u64,
    /// The second of that day, which is 86,400 in a leap second.
    pub second: u64,
}

/// The TAI second since the start of 2004 as UTC.
///
/// ```
/// use nattveldi::leap::{utc, Utc};
///
/// assert_eq!(utc(86_399), Utc { day: 0, second: 86_399 });
/// ```
#[must_use]
pub fn utc(tai: u64) -> Utc {
    let mut passed = 0;
    for day in DAYS_AFTER {
        let leap_second = day * SECONDS_A_DAY + passed;
        if tai == leap_second {
            return Utc {
                day: day - 1,
                second: SECONDS_A_DAY,
            };
        }
        if tai > leap_second {
            passed += 1;
        }
    }
    Utc {
        day: (tai - passed) / SECONDS_A_DAY,
        second: (tai - passed) % SECONDS_A_DAY,
    }
}

/// The TAI second of a second of UTC. `None` for a leap second on a day that
/// has none, a second after it, or a TAI second above 64 bits.
///
/// ```
/// use nattveldi::leap::{tai, Utc};
///
/// assert_eq!(tai(Utc { day: 1, second: 5 }), Some(86_405));
/// assert_eq!(tai(Utc { day: 1, second: 86_400 }), None);
/// ```
#[must_use]
pub fn tai(utc: Utc) -> Option<u64> {
    let ends_with_one = |day| DAYS_AFTER.iter().any(|after| after - 1 == day);
    let is_leap = utc.second == SECONDS_A_DAY;
    if utc.second > SECONDS_A_DAY || (is_leap && !ends_with_one(utc.day)) {
        return None;
    }
    let passed = DAYS_AFTER.iter().filter(|&&day| day <= utc.day).count();
    let days = utc.day.checked_mul(SECONDS_A_DAY)?;
    days.checked_add(utc.second + passed as u64)
}

#[cfg(test)]
mod tests {
    use super::*;

    /// The dates of IERS Bulletin C, as GNU `date -u -d DATE +%s` gives them;
    /// 1,072,915,200 is 2004-01-01.
    #[test]
    fn the_days_are_the_dates() {
        let dates = [
            1_136_073_600, // 2006-01-01
            1_230_768_000, // 2009-01-01
            1_341_100_800, // 2012-07-01
            1_435_708_800, // 2015-07-01
            1_483_228_800, // 2017-01-01
        ];
        assert_eq!(
            dates.map(|date| (date - 1_072_915_200) / 86_400),
            DAYS_AFTER
        );
    }

    /// Around each leap second: 23:59:59, 23:59:60, 00:00:00 follow each other.
    #[test]
    fn each_leap_second_is_counted() {
        for (before, day) in (0..).zip(DAYS_AFTER) {
            let leap = day * 86_400 + before;
            let at = |day, second| Utc { day, second };
            assert_eq!(utc(leap - 1), at(day - 1, 86_399));
            assert_eq!(utc(leap), at(day - 1, 86_400));
            assert_eq!(utc(leap + 1), at(day, 0));
            for second in [leap - 1, leap, leap + 1] {
                assert_eq!(tai(utc(second)), Some(second));
            }
        }
    }

    #[test]
    fn no_leap_second_there() {
        let second = |second| Utc { day: 10, second };
        assert_eq!(tai(second(86_400)), None);
        assert_eq!(tai(second(90_000)), None);
    }

    #[test]
    fn the_ends_of_the_range() {
        assert_eq!(utc(0), Utc { day: 0, second: 0 });
        assert_eq!(tai(utc(u64::MAX)), Some(u64::MAX));
        let Utc { day, second } = utc(u64::MAX);
        let after = second + 1;
        assert_eq!(tai(Utc { day, second: after }), None);
        assert_eq!(
            tai(Utc {
                day: u64::MAX,
                second: 0
            }),
            None
        );
    }
}
