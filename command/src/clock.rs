//! The time, in words.

use std::time::{SystemTime, UNIX_EPOCH};

const DAY: u64 = 86_400;

/// The minute that it is, as `2026-01-31 12:00 UTC`; where `SOURCE_DATE_EPOCH` has seconds, as for
/// builds that are to give the same bytes, the minute that they say.
pub fn minute() -> String {
    let fixed = std::env::var("SOURCE_DATE_EPOCH").ok();
    let fixed = fixed.and_then(|seconds| seconds.parse().ok());
    let now = || SystemTime::now().duration_since(UNIX_EPOCH);
    let seconds = fixed.unwrap_or_else(|| now().map_or(0, |since| since.as_secs()));
    of(seconds)
}

/// The minute of so many seconds since 1970.
fn of(seconds: u64) -> String {
    let (mut days, seconds) = (seconds / DAY, seconds % DAY);
    let mut year = 1970;
    let leap = |year: u64| {
        year.is_multiple_of(4) && (!year.is_multiple_of(100) || year.is_multiple_of(400))
    };
    let length = |year| if leap(year) { 366 } else { 365 };
    while days >= length(year) {
        days -= length(year);
        year += 1;
    }
    let february = if leap(year) { 29 } else { 28 };
    let mut month = 1;
    for length in [31, february, 31, 30, 31, 30, 31, 31, 30, 31, 30] {
        if days < length {
            break;
        }
        days -= length;
        month += 1;
    }
    let (hours, minutes) = (seconds / 3_600, seconds / 60 % 60);
    let day = days + 1;
    format!("{year:04}-{month:02}-{day:02} {hours:02}:{minutes:02} UTC")
}

#[cfg(test)]
mod tests {
    use super::*;

    #[test]
    fn minutes() {
        for (seconds, minute) in [
            (0, "1970-01-01 00:00 UTC"),
            (DAY - 1, "1970-01-01 23:59 UTC"),
            (951_782_400, "2000-02-29 00:00 UTC"),
            (951_868_800, "2000-03-01 00:00 UTC"),
            (1_704_067_199, "2023-12-31 23:59 UTC"),
            (4_107_542_400, "2100-03-01 00:00 UTC"),
        ] {
            assert_eq!(of(seconds), minute);
        }
    }
}
