//! Days and times: the ends of each word, of months and of years, and every hour.

use super::super::super::Input;
use super::{Place, Told, PLACES, SOME_TIME};
use crate::navigation::epoch::Epoch;

const PERIODS: [u128; 7] = [0, 1, 2, 20, 21, 22, 31];
const DAYS: [u128; 7] = [0, 1, 2, 1460, 1461, 1462, 2047];

/// tb at its ends, and before and after Moscow's three o'clock.
const QUARTERS: [u128; 6] = [1, 11, 12, 13, 94, 95];
const THREE_O_CLOCK: u128 = 12;

/// tk at its ends, around midnight and around three o'clock.
const TIMES: [(i64, i64, i64); 8] = [
    (0, 0, 0),
    (0, 0, 1),
    (2, 59, 0),
    (2, 59, 1),
    (3, 0, 0),
    (3, 0, 1),
    (23, 59, 0),
    (23, 59, 1),
];

pub(super) fn add_all(input: &mut Input) {
    input.fresh_with_some_book();
    let mut place = PLACES[0];
    input.ends_of_periods_and_days(&mut place);
    input.first_and_last_day(&mut place);
    input.ends_of_months(&mut place);
    input.every_hour(&mut place);
    input.any_time(&mut place);
}

/// The first of each month of four years, by NT.
fn first_days() -> impl Iterator<Item = u128> {
    let is_first = |day: &u128| {
        let epoch = Epoch {
            period: 1,
            day: *day as i64,
            tb: THREE_O_CLOCK as i64,
        };
        epoch.date().day == 1
    };
    (1..=1461).filter(is_first)
}

impl Input {
    /// The next frame on this channel, and the text.
    fn text_of(&mut self, place: &mut Place, told: Told) {
        let strings = self.told(told);
        *place = place.next();
        self.hear(*place, &strings);
        self.ask_text(*place);
    }

    /// All of the one with all of the other, and tb and tk at their ends in turn.
    fn ends_of_periods_and_days(&mut self, place: &mut Place) {
        let mut quarters = QUARTERS.into_iter().cycle();
        let mut times = TIMES.into_iter().cycle();
        for period in PERIODS {
            for day in DAYS {
                for (tb, tk) in quarters.by_ref().zip(times.by_ref()).take(2) {
                    let told = Told {
                        period,
                        day,
                        tb,
                        tk,
                        ..SOME_TIME
                    };
                    self.text_of(place, told);
                }
            }
        }
    }

    /// The first quarter of an hour of all is still in 1995.
    fn first_and_last_day(&mut self, place: &mut Place) {
        for (period, day) in [(1, 1), (21, 1461)] {
            for tb in QUARTERS {
                let told = Told {
                    period,
                    day,
                    tb,
                    ..SOME_TIME
                };
                self.text_of(place, told);
            }
        }
    }

    /// The last quarter of an hour of one month and the first of the next, and the day before
    /// the last of February; periods in turn.
    fn ends_of_months(&mut self, place: &mut Place) {
        let mut periods = (1..=21).cycle();
        for day in first_days() {
            for tb in [THREE_O_CLOCK - 1, THREE_O_CLOCK] {
                let period = periods.next().expect("an endless row");
                let told = Told {
                    period,
                    day,
                    tb,
                    ..SOME_TIME
                };
                self.text_of(place, told);
            }
        }
        for (period, day) in [(1, 59), (2, 60), (21, 60), (2, 426), (7, 791), (21, 1156)] {
            let told = Told {
                period,
                day,
                ..SOME_TIME
            };
            self.text_of(place, told);
        }
    }

    /// Both times in the same hour.
    fn every_hour(&mut self, place: &mut Place) {
        for hour in 0..24 {
            let told = Told {
                tk: (hour, (7 * hour + 11) % 60, hour % 2),
                tb: (4 * hour as u128).max(1),
                ..SOME_TIME
            };
            self.text_of(place, told);
        }
    }

    /// On a few satellites; some have no slot and some times are out of range.
    fn any_time(&mut self, place: &mut Place) {
        for _ in 0..60 {
            let told = Told {
                n: self.random.below(26) as u128,
                period: self.random.below(23) as u128,
                day: self.random.below(1480) as u128,
                tb: 1 + self.random.below(95) as u128,
                tk: (
                    self.random.below(24) as i64,
                    self.random.below(60) as i64,
                    1,
                ),
            };
            self.text_of(place, told);
        }
    }
}
