//! Times of the log: seconds since 1970 in UTC, and as people write them.
use std::time::{SystemTime, UNIX_EPOCH};

const DAY: u64 = 86_400;
/// The days of 400 years, after which the calendar repeats itself.
const DAYS_OF_400_YEARS: u64 = 146_097;
/// The days from 1 March of the year 0 to 1 January 1970.
const DAYS_TO_1970: u64 = 719_468;
/// The last second of the year 9999.
const LAST: u64 = 253_402_300_799;

/// Now, in seconds since 1970; a clock that stands before that is taken as 0.
pub fn now() -> u64 {
    SystemTime::now().duration_since(UNIX_EPOCH).map_or(0, |time| time.as_secs()).min(LAST)
}

/// A time as `2026-11-17T15:33:00Z`.
pub fn text(seconds: u64) -> String {
    let (year, month, day) = date(seconds / DAY);
    let [hour, minute, second] = [seconds / 3600 % 24, seconds / 60 % 60, seconds % 60];
    format!("{year:04}-{month:02}-{day:02}T{hour:02}:{minute:02}:{second:02}Z")
}

/// The time of such a text.
pub fn parse(text: &str) -> Option<u64> {
    let bytes = text.as_bytes();
    let number = |from: usize, count: usize| {
        let digits = text.get(from..from + count)?;
        digits.bytes().all(|digit| digit.is_ascii_digit()).then(|| digits.parse::<u64>().ok())?
    };
    let [year, month, day] = [number(0, 4)?, number(5, 2)?, number(8, 2)?];
    let [hour, minute, second] = [number(11, 2)?, number(14, 2)?, number(17, 2)?];
    let seconds = days(year, month, day)? * DAY + hour * 3600 + minute * 60 + second;
    // a time that is not written as it was read, such as a 30 February, is none
    (bytes.len() == 20 && self::text(seconds) == text).then_some(seconds)
}

/// Year, month and day of a day since 1970. Years are taken from 1 March on, so that a leap day is their last.
fn date(day: u64) -> (u64, u64, u64) {
    let shifted = day + DAYS_TO_1970;
    let (era, of_era) = (shifted / DAYS_OF_400_YEARS, shifted % DAYS_OF_400_YEARS);
    let year = (of_era - of_era / 1460 + of_era / 36_524 - of_era / 146_096) / 365;
    let of_year = of_era - (365 * year + year / 4 - year / 100);
    let from_march = (5 * of_year + 2) / 153;
    let day = of_year - (153 * from_march + 2) / 5 + 1;
    let month = if from_march < 10 { from_march + 3 } else { from_march - 9 };
    (400 * era + year + u64::from(month <= 2), month, day)
}

/// The days since 1970 of a date from 1970 on.
fn days(year: u64, month: u64, day: u64) -> Option<u64> {
    if !(1..=12).contains(&month) || !(1..=31).contains(&day) {
        return None;
    }
    let year = year.checked_sub(u64::from(month <= 2))?;
    let (era, of_era) = (year / 400, year % 400);
    let from_march = if month > 2 { month - 3 } else { month + 9 };
    let of_year = (153 * from_march + 2) / 5 + day - 1;
    let days = era * DAYS_OF_400_YEARS + of_era * 365 + of_era / 4 - of_era / 100 + of_year;
    days.checked_sub(DAYS_TO_1970)
}

#[cfg(test)]
mod tests {
    use super::*;

    #[test]
    fn times_are_written_and_read() {
        for (seconds, written) in [
            (0, "1970-01-01T00:00:00Z"),
            (951_782_399, "2000-02-28T23:59:59Z"),
            (951_782_400, "2000-02-29T00:00:00Z"),
            (1_709_164_800, "2024-02-29T00:00:00Z"),
            (1_794_929_580, "2026-11-17T15:33:00Z"),
            (4_107_542_400, "2100-03-01T00:00:00Z"),
            (LAST, "9999-12-31T23:59:59Z"),
        ] {
            assert_eq!((text(seconds).as_str(), parse(written)), (written, Some(seconds)));
        }
        let all = (0..1_000_000_u64).map(|i| i * 86_399);
        assert!(all.into_iter().all(|seconds| parse(&text(seconds)) == Some(seconds)));
    }

    #[test]
    fn other_texts_are_no_times() {
        let bad = [
            "",
            "2026-11-17",
            "2026-11-17T15:33:00",
            "2026-11-17 15:33:00Z",
            "2026-13-01T00:00:00Z",
            "2026-02-29T00:00:00Z",
            "2026-00-10T00:00:00Z",
            "1969-12-31T23:59:59Z",
            "2026-11-17T24:00:00Z",
            "2026-11-17T15:60:00Z",
            "+026-11-17T15:33:00Z",
            "2026-11-17T15:33:00Zx",
            "ééééééééééé",
        ];
        for text in bad {
            assert_eq!(parse(text), None, "{text}");
        }
    }
}
