//! When a record's words hold: from four-year periods and days of Moscow time to a date.

use crate::station::almanac::DAYS_IN_FOUR_YEARS;

/// Minutes of a unit of tb, and of the hours and days that make up the time.
const MINUTES_OF_TB: i64 = 15;
const MINUTES_IN_AN_HOUR: i64 = 60;
const MINUTES_IN_A_DAY: i64 = 24 * MINUTES_IN_AN_HOUR;
const SECONDS_IN_A_DAY: i64 = 24 * 60 * 60;

/// "Moscow time less three hours gives the epoch."
const HOURS_AHEAD: i64 = 3;

/// Day 1 of period 1 is the first of January of this year.
const FIRST_YEAR: i64 = 1996;

/// N4, NT and tb, as they are sent.
#[derive(Clone, Copy, Debug, PartialEq, Eq)]
pub struct Epoch {
    pub period: i64,
    pub day: i64,
    pub tb: i64,
}

/// The same by the calendar, three hours earlier.
#[derive(Clone, Copy, Debug, PartialEq, Eq)]
pub struct Date {
    pub year: i64,
    pub month: i64,
    pub day: i64,
    pub hour: i64,
    pub minute: i64,
}

impl Epoch {
    pub fn date(self) -> Date {
        let days = DAYS_IN_FOUR_YEARS * (self.period - 1) + self.day - 1;
        let minutes = MINUTES_OF_TB * self.tb - MINUTES_IN_AN_HOUR * HOURS_AHEAD;
        let (year, month, day) = date_after(days + minutes.div_euclid(MINUTES_IN_A_DAY));
        let in_day = minutes.rem_euclid(MINUTES_IN_A_DAY);
        Date {
            year,
            month,
            day,
            hour: in_day / MINUTES_IN_AN_HOUR,
            minute: in_day % MINUTES_IN_AN_HOUR,
        }
    }
}

/// The date so many days after the first of January 1996; before it where they are below 0.
fn date_after(mut days: i64) -> (i64, i64, i64) {
    let mut year = FIRST_YEAR;
    while days < 0 {
        year -= 1;
        days += days_in_year(year);
    }
    while days >= days_in_year(year) {
        days -= days_in_year(year);
        year += 1;
    }
    let mut month = 1;
    while days >= days_in_month(year, month) {
        days -= days_in_month(year, month);
        month += 1;
    }
    (year, month, days + 1)
}

fn is_leap(year: i64) -> bool {
    year % 4 == 0 && (year % 100 != 0 || year % 400 == 0)
}

fn days_in_year(year: i64) -> i64 {
    (1..=12).map(|month| days_in_month(year, month)).sum()
}

fn days_in_month(year: i64, month: i64) -> i64 {
    match month {
        2 if is_leap(year) => 29,
        2 => 28,
        4 | 6 | 9 | 11 => 30,
        _ => 31,
    }
}

/// tk, which is hour x 128 + minute x 2 + half minute, less three hours: seconds of its day.
pub fn frame_time(tk: i64) -> i64 {
    let (hour, minute, half_minute) = (tk / 128, tk / 2 % 64, tk % 2);
    let seconds = 60 * (60 * (hour - HOURS_AHEAD) + minute) + 30 * half_minute;
    seconds.rem_euclid(SECONDS_IN_A_DAY)
}
