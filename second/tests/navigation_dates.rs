//! Epochs of navigation records by the calendar, and the time of a frame.

use second::navigation::epoch::{frame_time, Date, Epoch};
use second::words::word::time_of_day;

fn date(period: i64, day: i64, tb: i64) -> Date {
    Epoch { period, day, tb }.date()
}

fn at(year: i64, month: i64, day: i64, hour: i64, minute: i64) -> Date {
    Date {
        year,
        month,
        day,
        hour,
        minute,
    }
}

#[test]
fn known_epochs() {
    for (sent, expected) in [
        ((1, 1, 1), at(1995, 12, 31, 21, 15)),
        ((1, 1, 11), at(1995, 12, 31, 23, 45)),
        ((1, 1, 12), at(1996, 1, 1, 0, 0)),
        ((1, 1, 95), at(1996, 1, 1, 20, 45)),
        ((1, 61, 11), at(1996, 2, 29, 23, 45)),
        ((1, 61, 12), at(1996, 3, 1, 0, 0)),
        ((1, 426, 11), at(1997, 2, 28, 23, 45)),
        ((1, 426, 12), at(1997, 3, 1, 0, 0)),
        ((2, 1, 11), at(1999, 12, 31, 23, 45)),
        ((2, 60, 48), at(2000, 2, 29, 9, 0)),
        ((6, 104, 59), at(2016, 4, 13, 11, 45)),
        ((21, 1461, 95), at(2079, 12, 31, 20, 45)),
    ] {
        let (period, day, tb) = sent;
        assert_eq!(date(period, day, tb), expected, "{sent:?}");
    }
}

/// By the rule for the number of days before a date that counts years from March on: 146,097
/// days in 400 years, 153 days in five months.
fn days_before(date: Date) -> i64 {
    let (year, month) = match date.month {
        1 | 2 => (date.year - 1, date.month + 9),
        month => (date.year, month - 3),
    };
    let in_year = (153 * month + 2) / 5 + date.day - 1;
    365 * year + year / 4 - year / 100 + year / 400 + in_year
}

/// Each day of each period: so many minutes after the first of January 1996 in Moscow.
#[test]
fn every_day_is_as_far_from_the_first_as_it_is_sent() {
    let first = days_before(at(1996, 1, 1, 0, 0));
    for period in 1..=21 {
        for day in 1..=1461 {
            for tb in [1, 11, 12, 13, 95] {
                let found = date(period, day, tb);
                let days = days_before(found) - first;
                let minutes = 1440 * days + 60 * found.hour + found.minute;
                let sent = 1440 * (1461 * (period - 1) + day - 1) + 15 * tb;
                assert_eq!(minutes, sent - 180);
            }
        }
    }
}

/// "Two-digit years end with 2079"; a year has twelve months and they have 28 to 31 days.
#[test]
fn every_date_is_one_of_the_calendar() {
    for period in 1..=21 {
        for day in 1..=1461 {
            for tb in 1..=95 {
                let found = date(period, day, tb);
                let last = match found.month {
                    2 if found.year % 4 == 0 => 29,
                    2 => 28,
                    4 | 6 | 9 | 11 => 30,
                    _ => 31,
                };
                assert!((1995..=2079).contains(&found.year));
                assert!((1..=12).contains(&found.month));
                assert!((1..=last).contains(&found.day));
                assert!((0..24).contains(&found.hour));
                assert!([0, 15, 30, 45].contains(&found.minute));
            }
        }
    }
}

#[test]
fn the_time_of_a_frame_is_three_hours_earlier() {
    for (hour, minute, half_minute, seconds) in [
        (0, 0, 0, 75_600),
        (2, 59, 1, 86_370),
        (3, 0, 0, 0),
        (3, 0, 1, 30),
        (14, 36, 1, 41_790),
        (23, 59, 1, 75_570),
    ] {
        let tk = time_of_day(hour, minute, half_minute);
        assert_eq!(frame_time(tk), seconds);
    }
}

#[test]
fn every_time_of_a_frame_is_its_own() {
    let mut seconds = 75_600;
    for hour in 0..24 {
        for minute in 0..60 {
            for half_minute in [0, 1] {
                let tk = time_of_day(hour, minute, half_minute);
                assert_eq!(frame_time(tk), seconds % 86_400);
                seconds += 30;
            }
        }
    }
}
