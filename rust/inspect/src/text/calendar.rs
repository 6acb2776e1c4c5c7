//! Days since 2004-01-01 and dates.

/// The days of 400 years, after which the calendar repeats.
const DAYS_OF_400_YEARS: u64 = 146_097;
/// From 2000-01-01, where a run of 400 years starts, to 2004-01-01.
const DAYS_TO_2004: u64 = 366 + 3 * 365;

/// Year, month and day.
pub fn date(day: u64) -> (u64, u64, u64) {
    let mut left = day + DAYS_TO_2004;
    let mut year = 2_000 + 400 * (left / DAYS_OF_400_YEARS);
    left %= DAYS_OF_400_YEARS;
    while left >= days_of_year(year) {
        left -= days_of_year(year);
        year += 1;
    }
    let mut month = 1;
    while left >= days_of_month(year, month) {
        left -= days_of_month(year, month);
        month += 1;
    }
    (year, month, left + 1)
}

/// The day of a date; `None` if there is no such date, or it is before 2004 or
/// after 9999.
pub fn day(year: u64, month: u64, day: u64) -> Option<u64> {
    let known = (2_004..10_000).contains(&year) && (1..=12).contains(&month);
    if !known || day < 1 || day > days_of_month(year, month) {
        return None;
    }
    let years: u64 = (2_004..year).map(days_of_year).sum();
    let months: u64 = (1..month).map(|m| days_of_month(year, m)).sum();
    Some(years + months + day - 1)
}

fn is_leap_year(year: u64) -> bool {
    year.is_multiple_of(4) && (!year.is_multiple_of(100) || year.is_multiple_of(400))
}

fn days_of_year(year: u64) -> u64 {
    365 + u64::from(is_leap_year(year))
}

fn days_of_month(year: u64, month: u64) -> u64 {
    match month {
        2 => 28 + u64::from(is_leap_year(year)),
        4 | 6 | 9 | 11 => 30,
        _ => 31,
    }
}

#[cfg(test)]
mod tests {
    use super::*;

    /// The days are those of GNU `date -u -d DATE +%s`, less 1,072,915,200, by
    /// 86,400.
    #[test]
    fn both_ways() {
        let cases = [
            (0, (2004, 1, 1)),
            (59, (2004, 2, 29)),
            (731, (2006, 1, 1)),
            (1_827, (2009, 1, 1)),
            (3_104, (2012, 7, 1)),
            (4_199, (2015, 7, 1)),
            (4_749, (2017, 1, 1)),
            (8_825, (2028, 2, 29)),
        ];
        for (number, (year, month, of_month)) in cases {
            assert_eq!(date(number), (year, month, of_month));
            assert_eq!(day(year, month, of_month), Some(number));
        }
        assert_eq!(date(3_041_409), (10_331, 2, 5));
    }

    #[test]
    fn no_such_date() {
        for (year, month, of_month) in [(2003, 1, 1), (2026, 2, 29), (2026, 13, 1), (2026, 1, 0)] {
            assert_eq!(day(year, month, of_month), None);
        }
    }
}
