//! Skies that are refused: rooms, strings that there are not, slots out of order, words out of
//! range, several of these at once, and payloads of other lengths.

use super::super::words::values_beyond;
use super::super::Input;
use super::{words_of_a_sky, FIRST_WORD_OF_ENTRIES, L_IN_A_RECORD, RIGHT_ROOM};
use crate::request::{LARGEST_ROOM_OF_A_SKY, SKY};
use crate::sky::{
    Sky, L_IN_STRING_5, PERIOD_IN_STRING_5, SLOT_IN_AN_ENTRY, STRINGS, WORDS_OF_AN_ENTRY,
    WORDS_OF_AN_EVEN_HALF,
};
use crate::station::book::SLOTS;
use crate::words::kinds::ALMANAC_SLOT;
use crate::words::word::time_of_day;

/// The last of these is none.
const ROOMS: [u16; 6] = [
    0,
    RIGHT_ROOM - 1,
    RIGHT_ROOM,
    RIGHT_ROOM + 1,
    LARGEST_ROOM_OF_A_SKY,
    LARGEST_ROOM_OF_A_SKY + 1,
];

/// The last of these is the right one with its bytes exchanged.
const OTHER_ROOMS: [u16; 4] = [11, 200, u16::MAX, RIGHT_ROOM.swap_bytes()];

const NO_STRINGS: [u8; 3] = [0, 76, 255];

/// Where tk stands in a record, and where NA in string 5.
const TK: usize = 1;
const NA: usize = 0;

/// Entries that change places, counted from 0: in a frame, between two frames, the ends.
const EXCHANGES: [(usize, usize); 6] = [(0, 1), (4, 5), (11, 12), (19, 20), (22, 23), (0, 23)];

/// Words, by their numbers in a sky, that are out of range together: of neighbours and of
/// strings far apart, the later one first or last; of one string; of B1, B2 and KP.
const TOGETHER: [&[usize]; 9] = [
    &[0, 321],
    &[25, 26],
    &[30, 33],
    &[31, 320],
    &[31, 32, 33],
    &[34, 41],
    &[94, 93],
    &[22, 17, 10],
    &[300, 200, 100],
];

pub(super) fn add_all(input: &mut Input) {
    input.rooms_of_skies();
    input.strings_that_there_are_not();
    input.one_slot_wrong();
    input.slots_out_of_order();
    input.one_word_out_of_range();
    input.ends_of_ranges();
    input.several_words_out_of_range();
    input.order_comes_before_range();
    input.skies_of_other_lengths();
}

impl Input {
    /// Some string of the sky is asked for.
    fn refused_sky(&mut self, sky: &Sky) {
        let place = 1 + self.random.below(STRINGS) as u8;
        self.sky_in(RIGHT_ROOM, place, sky);
    }

    /// A good one but for the words with these numbers. The slots stay as they are.
    fn sky_out_of_range_at(&mut self, indices: &[usize]) -> Sky {
        let mut words = self.some_sky().words();
        for &index in indices {
            let beyond = values_beyond(words_of_a_sky()[index]);
            words[index] = self.random.one_of(&beyond);
        }
        Sky::from_words(&words).expect("all words of a sky")
    }

    /// Every word but the slots is out of range.
    fn sky_all_out_of_range(&mut self) -> Sky {
        let words = words_of_a_sky();
        let indices = (0..words.len()).filter(|&index| *words[index] != ALMANAC_SLOT);
        let indices: Vec<usize> = indices.collect();
        self.sky_out_of_range_at(&indices)
    }

    /// Each with a good sky and with one that has everything wrong.
    fn rooms_of_skies(&mut self) {
        let good = self.some_sky();
        let out_of_range = self.sky_all_out_of_range();
        let out_of_order = exchanged(&good, (0, 1));
        let both = exchanged(&out_of_range, (22, 23));
        for room in ROOMS {
            self.sky_in(room, 1, &good);
            self.sky_in(room, 1, &both);
        }
        for sky in [out_of_range, out_of_order] {
            self.sky_in(RIGHT_ROOM - 1, 75, &sky);
        }
        for room in OTHER_ROOMS {
            self.sky_in(room, 1, &good);
        }
    }

    fn strings_that_there_are_not(&mut self) {
        let good = self.some_sky();
        let wrong = exchanged(&self.sky_all_out_of_range(), (0, 1));
        for place in NO_STRINGS {
            self.sky_in(RIGHT_ROOM, place, &good);
            self.sky_in(0, place, &wrong);
        }
    }

    /// In each entry some other number stands. The low bits of several are right.
    fn one_slot_wrong(&mut self) {
        let numbers: [fn(i64) -> i64; 10] = [
            |_| 0,
            |slot| slot + 1,
            |slot| slot - 1,
            |slot| -slot,
            |slot| slot + 32,
            |slot| slot + 256,
            |slot| slot + 65_536,
            |_| i64::from(i32::MIN),
            |_| i64::from(i32::MAX),
            |_| 25,
        ];
        for (index, number) in (0..SLOTS).zip(numbers.into_iter().cycle()) {
            let mut sky = self.some_sky();
            let slot = &mut sky.entries[index][SLOT_IN_AN_ENTRY];
            *slot = number(*slot);
            self.refused_sky(&sky);
        }
    }

    /// Two exchanged, the last first, all by one place, all the same.
    fn slots_out_of_order(&mut self) {
        for places in EXCHANGES {
            let sky = self.some_sky();
            self.refused_sky(&exchanged(&sky, places));
        }
        let changes: [fn(&mut Sky); 3] = [
            |sky| sky.entries.reverse(),
            |sky| sky.entries.rotate_left(1),
            |sky| sky.entries = [sky.entries[0]; SLOTS],
        ];
        for change in changes {
            let mut sky = self.some_sky();
            change(&mut sky);
            self.refused_sky(&sky);
        }
    }

    /// Each word before the entries, and one of each half of an entry.
    fn one_word_out_of_range(&mut self) {
        for index in 0..FIRST_WORD_OF_ENTRIES {
            let sky = self.sky_out_of_range_at(&[index]);
            self.refused_sky(&sky);
        }
        let of_even = (0..WORDS_OF_AN_EVEN_HALF).filter(|&index| index != SLOT_IN_AN_ENTRY);
        let of_odd = WORDS_OF_AN_EVEN_HALF..WORDS_OF_AN_ENTRY;
        let halves = of_even.cycle().zip(of_odd.cycle());
        for (entry, (even, odd)) in (0..SLOTS).zip(halves) {
            let first = FIRST_WORD_OF_ENTRIES + WORDS_OF_AN_ENTRY * entry;
            for index in [even, odd] {
                let sky = self.sky_out_of_range_at(&[first + index]);
                self.refused_sky(&sky);
            }
        }
    }

    /// N4 and NA, either l, hour, minute and H: what is refused next to what is not.
    fn ends_of_ranges(&mut self) {
        for period in [0, 1, 31, 32] {
            self.altered_sky(|sky| sky.string_5[PERIOD_IN_STRING_5] = period);
        }
        for day in [0, 1462] {
            self.altered_sky(|sky| sky.string_5[NA] = day);
        }
        for l in [-1, 2] {
            self.altered_sky(|sky| sky.string_5[L_IN_STRING_5] = l);
        }
        self.altered_sky(|sky| sky.record[L_IN_A_RECORD] = 2);
        for (hour, minute) in [(24, 0), (0, 60)] {
            self.altered_sky(|sky| sky.record[TK] = time_of_day(hour, minute, 0));
        }
        for (entry, carrier) in [(4, 14), (19, 25), (20, 31), (23, -8)] {
            self.altered_sky(|sky| sky.entries[entry][WORDS_OF_AN_ENTRY - 1] = carrier);
        }
    }

    fn altered_sky(&mut self, alter: impl Fn(&mut Sky)) {
        let mut sky = self.some_sky();
        alter(&mut sky);
        self.refused_sky(&sky);
    }

    /// The lowest string is named. N4 is 0 beside others, too.
    fn several_words_out_of_range(&mut self) {
        for indices in TOGETHER {
            let sky = self.sky_out_of_range_at(indices);
            self.refused_sky(&sky);
        }
        let sky = self.sky_all_out_of_range();
        self.refused_sky(&sky);
        for index in [25, 34] {
            let mut sky = self.sky_out_of_range_at(&[index]);
            sky.string_5[PERIOD_IN_STRING_5] = 0;
            self.refused_sky(&sky);
        }
    }

    fn order_comes_before_range(&mut self) {
        for indices in [&[0][..], &[33], &[34, 321]] {
            let sky = self.sky_out_of_range_at(indices);
            self.refused_sky(&exchanged(&sky, (4, 5)));
        }
        let mut sky = self.sky_all_out_of_range();
        sky.string_5[PERIOD_IN_STRING_5] = 0;
        self.refused_sky(&exchanged(&sky, (0, 23)));
    }

    /// No word, a byte or a word too few, the same too many.
    fn skies_of_other_lengths(&mut self) {
        let [high, low] = RIGHT_ROOM.to_be_bytes();
        let whole = [&[high, low, 1], &self.some_sky().to_bytes()[..], &[0; 4]].concat();
        let right = whole.len() - 4;
        for length in [0, 1, 2, 3, 4, 7, 16, 256] {
            self.request(SKY, &whole[..length]);
        }
        for length in [right - 4, right - 1, right, right + 1, right + 4] {
            self.request(SKY, &whole[..length]);
        }
    }
}

/// These two entries have changed places.
fn exchanged(sky: &Sky, (first, second): (usize, usize)) -> Sky {
    let mut other = sky.clone();
    other.entries.swap(first, second);
    other
}
