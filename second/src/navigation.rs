//! The navigation record: RINEX 2.11, for a GLONASS satellite. A file is made of them.

pub mod epoch;
pub mod file;
pub mod number;

use crate::refusal::Refusal;
use crate::scaled::Scaled;
use crate::station::record::{by_string, ImmediateRecord};
use crate::station::Station;
use crate::words::kinds::{DAY, FOUR_YEAR_PERIOD};
use crate::words::word::Word;
use epoch::{frame_time, Epoch};
use number::D19;

/// "Four lines of 79 columns and a line feed."
pub const RECORD_BYTES: usize = 4 * (79 + 1);

/// "10 when NT is not 1..1461 (place 26), then when N4 is not 1..21 (place 36; two-digit years
/// end with 2079)."
const LAST_DAY: i64 = 1461;
const LAST_PERIOD: i64 = 21;

/// What a record tells of its satellite.
#[derive(Clone, Debug, PartialEq, Eq)]
pub struct Navigation {
    /// n, 1 to 24.
    pub satellite: usize,
    pub epoch: Epoch,
    /// The numbers behind the epoch, and of the other three lines.
    numbers: [Vec<Scaled>; 4],
}

impl Navigation {
    /// Order of refusals: 16, 1, 15, 13, 10 for NT, 10 for N4.
    pub fn of(station: &Station, card: u8, channel: usize) -> Result<Navigation, Refusal> {
        let record = station.immediate(card, channel)?;
        let string_5 = station.five_of(card, channel)?;
        let entry = station.entry(card, record.satellite);
        // "n without a slot is 13", too.
        let entry = entry.map_err(|_| Refusal::Nothing)?;
        let [_, _, period, _, _] = string_5[..] else {
            unreachable!("string 5 has five words");
        };
        Navigation::from_words(record, period, entry.carrier())
    }

    fn from_words(
        record: &ImmediateRecord,
        period: i64,
        carrier: i64,
    ) -> Result<Navigation, Refusal> {
        let [first, second, third, fourth] = by_string(&record.words);
        let ([_, tk, x @ ..], [b, _, tb, y @ ..]) = (first, second) else {
            unreachable!("the words of strings 1 and 2");
        };
        let ([_, gamma, _, _, z @ ..], [tau, _, e, _, _, day, _, _]) = (third, fourth) else {
            unreachable!("the words of strings 3 and 4");
        };
        require_within(&DAY, *day, LAST_DAY)?;
        require_within(&FOUR_YEAR_PERIOD, period, LAST_PERIOD)?;
        let frame_time = whole(frame_time(*tk));
        Ok(Navigation {
            satellite: record.satellite,
            epoch: Epoch {
                period,
                day: *day,
                tb: *tb,
            },
            numbers: [
                vec![in_units(-tau, 30), in_units(*gamma, 40), frame_time],
                axis(x, *b),
                axis(y, carrier),
                axis(z, *e),
            ],
        })
    }

    /// Refused by 17 where the room is not that of a record.
    pub fn written_in(&self, room: usize) -> Result<String, Refusal> {
        match room {
            RECORD_BYTES => Ok(self.written()),
            _ => Err(Refusal::RecordRoom),
        }
    }

    /// `I2,1X,I2.2,4(1X,I2),F5.1,3D19.12`, then three times `3X,4D19.12`.
    pub fn written(&self) -> String {
        let [first, others @ ..] = &self.numbers;
        let date = self.epoch.date();
        let mut text = format!(
            "{:2} {:02} {:2} {:2} {:2} {:2}  0.0{}\n",
            self.satellite,
            date.year % 100,
            date.month,
            date.day,
            date.hour,
            date.minute,
            side_by_side(first)
        );
        for numbers in others {
            text += &format!("   {}\n", side_by_side(numbers));
        }
        text
    }
}

/// From velocity, acceleration and coordinate, as they stand in a string, and one word more.
fn axis(words: &[i64], last: i64) -> Vec<Scaled> {
    let &[velocity, acceleration, coordinate] = words else {
        unreachable!("an axis has three words");
    };
    vec![
        in_units(coordinate, 11),
        in_units(velocity, 20),
        in_units(acceleration, 30),
        whole(last),
    ]
}

/// The raw number in a unit of 2 to the power of minus `binary_places`.
fn in_units(raw: i64, binary_places: u32) -> Scaled {
    Scaled { raw, binary_places }
}

fn whole(number: i64) -> Scaled {
    in_units(number, 0)
}

fn side_by_side(numbers: &[Scaled]) -> String {
    let numbers = numbers.iter();
    numbers.map(|&number| D19(number).to_string()).collect()
}

/// RANGE where a word is not 1 to `last`.
fn require_within(word: &Word, value: i64, last: i64) -> Result<(), Refusal> {
    match (1..=last).contains(&value) {
        true => Ok(()),
        false => Err(Refusal::Range {
            place: word.top_bit(),
        }),
    }
}
