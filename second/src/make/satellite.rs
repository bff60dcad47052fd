//! What satellites send: superframes with an almanac, from words at random.

use crate::alter::{with_code, with_m};
use crate::random::SplitMix64;
pub use crate::sky::FRAMES_IN_A_SUPERFRAME;
use crate::sky::PAIRS_IN_A_FRAME;
use crate::station::almanac::DAYS_IN_FOUR_YEARS;
use crate::station::book::SLOTS;
use crate::string::NavString;
use crate::words::kinds::{
    ALMANAC_DAY, ALMANAC_SLOT, EVEN, FOUR_YEAR_PERIOD, FRAME_5_STRING_14, ODD, SATELLITE, STRING_1,
    STRING_2, STRING_3, STRING_4, STRING_5, TK,
};

const LAST_DAY: u128 = DAYS_IN_FOUR_YEARS as u128;

/// N4 and NA.
pub type Day = (u128, u128);

/// The day after; no day follows the last of period 31.
pub fn day_after((period, day): Day) -> Day {
    match (period, day) {
        (31, LAST_DAY) => (period, day),
        (_, LAST_DAY) => (period + 1, 1),
        _ => (period, day + 1),
    }
}

/// An almanac as the ground gives it to satellites.
#[derive(Clone)]
pub struct Upload {
    pub string_5: NavString,
    /// The pair of slot s is `pairs[s - 1]`.
    pub pairs: Vec<[NavString; 2]>,
    /// Strings 14 and 15 of frame 5, which are no pair. The ICD leaves string 15
    /// reserved but for l; random bits there would look like an odd half.
    pub last_of_frame_5: [NavString; 2],
}

impl Upload {
    pub fn new(random: &mut SplitMix64, day: Day) -> Upload {
        let string_5 = random.string_of(&STRING_5);
        let slots = 1..=SLOTS as u128;
        let pairs = slots.map(|slot| {
            let even = random.string_of(&EVEN);
            let odd = random.string_of(&ODD);
            [with_code(&even, &ALMANAC_SLOT, slot), odd]
        });
        Upload {
            string_5: on_day(&string_5, day),
            pairs: pairs.collect(),
            last_of_frame_5: [random.string_of(&FRAME_5_STRING_14), random.string_of(&ODD)],
        }
    }

    /// Strings 6 to 15 of a frame. Table 4.1: frames 1 to 4 have five slots each,
    /// frame 5 has four.
    fn strings(&self, frame: usize) -> Vec<NavString> {
        let first = PAIRS_IN_A_FRAME * (frame - 1);
        let halves = (first..first + PAIRS_IN_A_FRAME)
            .flat_map(|index| *self.pairs.get(index).unwrap_or(&self.last_of_frame_5));
        (6..)
            .zip(halves)
            .map(|(m, half)| with_m(&half, m))
            .collect()
    }
}

pub fn on_day(string_5: &NavString, (period, day): Day) -> NavString {
    let string = with_code(string_5, &FOUR_YEAR_PERIOD, period);
    with_code(&string, &ALMANAC_DAY, day)
}

/// A satellite's own words: strings 1 to 4.
#[derive(Clone)]
pub struct Satellite {
    pub strings: [NavString; 4],
}

impl Satellite {
    /// The satellite n, with its words in range.
    pub fn new(random: &mut SplitMix64, n: u128) -> Satellite {
        let string_4 = random.string_of(&STRING_4);
        Satellite {
            strings: [
                random.string_of(&STRING_1),
                random.string_of(&STRING_2),
                random.string_of(&STRING_3),
                with_code(&string_4, &SATELLITE, n),
            ],
        }
    }

    /// The same satellite at another time of day.
    pub fn at(mut self, time_of_day: i64) -> Satellite {
        self.strings[0] = with_code(&self.strings[0], &TK, time_of_day as u128);
        self
    }

    /// The fifteen strings of a frame; string m is at m - 1.
    pub fn frame(&self, upload: &Upload, number: usize) -> Vec<NavString> {
        let mut strings = self.strings.to_vec();
        strings.push(upload.string_5);
        strings.extend(upload.strings(number));
        strings
    }
}
