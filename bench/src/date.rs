//! Today's date.

use std::time::{SystemTime, UNIX_EPOCH};

/// The date as year-month-day, in universal time.
pub fn today() -> String {
    let seconds = SystemTime::now().duration_since(UNIX_EPOCH).map_or(0, |t| t.as_secs());
    date(seconds / 86_400)
}

/// The date so many days after the first of 1970.
fn date(days_since: u64) -> String {
    let (mut year, mut day) = (1970, days_since);
    while day >= days(year).iter().sum() {
        day -= days(year).iter().sum::<u64>();
        year += 1;
    }
    let (month, day) = month_and_day(year, day);
    format!("{year}-{month:02}-{day:02}")
}

/// The month and the day in it, both from 1, of a day of the year, from 0.
fn month_and_day(year: u64, mut day: u64) -> (usize, u64) {
    let mut month = 0;
    while day >= days(year)[month] {
        day -= days(year)[month];
        month += 1;
    }
    (month + 1, day + 1)
}

/// The lengths of a year's months.
fn days(year: u64) -> [u64; 12] {
    let leap = year % 4 == 0 && (year % 100 != 0 || year % 400 == 0);
    [31, if leap { 29 } else { 28 }, 31, 30, 31, 30, 31, 31, 30, 31, 30, 31]
}

#[cfg(test)]
mod tests {
    use super::date;

    #[test]
    fn days_since_1970_are_dates() {
        assert_eq!(
            [0, 58, 59, 364, 365, 789, 790, 11_016, 19_782].map(date),
            [
                "1970-01-01",
                "1970-02-28",
                "1970-03-01",
                "1970-12-31",
                "1971-01-01",
                "1972-02-29",
                "1972-03-01",
                "2000-02-29",
                "2024-02-29",
            ]
        );
    }
}
