//! Times: TAI seconds or microseconds since 2004-01-01 00:00:00 UTC, with the
//! date in UTC.

use nattveldi::{leap, Microseconds};

use super::calendar;

/// So many are a second.
pub const MICROSECONDS: u64 = Microseconds::A_SECOND;

pub fn second(tai: u64) -> String {
    format!("TAI second {tai} = {} UTC", date(tai))
}

pub fn microsecond(tai: u64) -> String {
    let rest = tai % MICROSECONDS;
    let date = date(tai / MICROSECONDS);
    format!("TAI microsecond {tai} = {date}.{rest:06} UTC")
}

/// `YEAR-MONTH-DAY HOUR:MINUTE:SECOND`
pub fn date(tai: u64) -> String {
    let utc = leap::utc(tai);
    let (year, month, day) = calendar::date(utc.day);
    // A leap second is the sixty-first of the last minute.
    let minutes = (utc.second / 60).min(24 * 60 - 1);
    let (hour, minute, second) = (minutes / 60, minutes % 60, utc.second - 60 * minutes);
    format!("{year}-{month:02}-{day:02} {hour:02}:{minute:02}:{second:02}")
}

/// A time in microseconds, from a number of them, or from a date in UTC such as
/// `2026-01-05T12:13:20.25Z`.
pub fn parse_microseconds(text: &str) -> Option<u64> {
    text.parse().ok().or_else(|| parse_date(text))
}

/// A time in seconds, from a number of them or a date in UTC.
pub fn parse_seconds(text: &str) -> Option<u32> {
    let date = || u32::try_from(parse_date(text)? / MICROSECONDS).ok();
    text.parse().ok().or_else(date)
}

fn parse_date(text: &str) -> Option<u64> {
    let text = text.strip_suffix('Z').unwrap_or(text);
    let (date, time) = text.split_once(['T', ' '])?;
    let (time, fraction) = time.split_once('.').unwrap_or((time, "0"));
    let [year, month, day] = numbers(date, '-')?;
    let [hour, minute, second] = numbers(time, ':')?;
    let is_leap = (hour, minute, second) == (23, 59, 60);
    if hour > 23 || minute > 59 || (second > 59 && !is_leap) || fraction.len() > 6 {
        return None;
    }
    let [fraction] = numbers(&format!("{fraction:0<6}"), ' ')?;
    let utc = leap::Utc {
        day: calendar::day(year, month, day)?,
        second: 3_600 * hour + 60 * minute + second,
    };
    Some(leap::tai(utc)? * MICROSECONDS + fraction)
}

fn numbers<const N: usize>(text: &str, between: char) -> Option<[u64; N]> {
    let number = |text: &str| {
        let digits = !text.is_empty() && text.bytes().all(|c| c.is_ascii_digit());
        digits.then(|| text.parse().ok()).flatten()
    };
    let numbers: Option<Vec<u64>> = text.split(between).map(number).collect();
    numbers?.try_into().ok()
}

#[cfg(test)]
mod tests {
    use super::*;

    /// UTC is behind by the leap seconds so far: none, 1, .., 5. The seconds
    /// are those of GNU `date -u`, less 1,072,915,200, and the leap seconds.
    #[test]
    fn dates() {
        let cases = [
            (0, "2004-01-01 00:00:00"),
            (63_158_399, "2005-12-31 23:59:59"),
            (63_158_400, "2005-12-31 23:59:60"),
            (63_158_401, "2006-01-01 00:00:00"),
            (157_852_802, "2009-01-01 00:00:00"),
            (268_185_602, "2012-06-30 23:59:60"),
            (362_793_604, "2015-07-01 00:00:00"),
            (410_313_604, "2016-12-31 23:59:60"),
            (410_313_605, "2017-01-01 00:00:00"),
            (694_656_000, "2026-01-04 23:59:55"),
            (694_656_005, "2026-01-05 00:00:00"),
        ];
        for (tai, utc) in cases {
            assert_eq!(date(tai), utc);
            assert_eq!(parse_date(utc), Some(tai * MICROSECONDS));
        }
        assert_eq!(date(262_777_739_970), "10331-02-05 00:39:25");
    }

    /// A leap second ends the day before each of these dates, and no other.
    #[test]
    fn the_days_are_the_dates() {
        let dates = [(2006, 1), (2009, 1), (2012, 7), (2015, 7), (2017, 1)];
        let days = dates.map(|(year, month)| calendar::day(year, month, 1).expect("a date"));
        let last = |day| leap::Utc {
            day: day - 1,
            second: leap::SECONDS_A_DAY,
        };
        let days_after = (1..100_000).filter(|&day| leap::tai(last(day)).is_some());
        assert_eq!(days_after.collect::<Vec<u64>>(), days);
    }

    #[test]
    fn the_unit_is_said() {
        assert_eq!(second(0), "TAI second 0 = 2004-01-01 00:00:00 UTC");
        let said = "TAI microsecond 694656005250000 = 2026-01-05 00:00:00.250000 UTC";
        assert_eq!(microsecond(694_656_005_250_000), said);
    }

    #[test]
    fn given_times() {
        let date = "2026-01-05T00:00:00.25Z";
        assert_eq!(parse_microseconds(date), Some(694_656_005_250_000));
        assert_eq!(parse_microseconds("250000000"), Some(250_000_000));
        assert_eq!(parse_seconds("220"), Some(220));
        assert_eq!(parse_seconds("2026-01-05 00:00:00"), Some(694_656_005));
        for text in [
            "",
            "-1",
            "2026-01-05",
            "2026-01-05T24:00:00",
            "2026-01-05T23:59:60Z",
        ] {
            assert_eq!(parse_microseconds(text), None, "{text}");
        }
        assert_eq!(parse_seconds("4294967296"), None);
    }
}
