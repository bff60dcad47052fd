//! What befalls the channels of a capture.

use super::{start_of, Capture, CHANNEL_NEAR_THE_LAST_EPOCH, MOMENTS};
use crate::alter::{with_bit_inverted, with_code, with_m};
use crate::station::frame::STRINGS_IN_A_FRAME;
use crate::string::NavString;
use crate::words::kinds::{ALMANAC_DAY, DAY, FOUR_YEAR_PERIOD, TB, TK};
use crate::words::word::Word;

const FRAME: u32 = STRINGS_IN_A_FRAME as u32;
const ALL_MOMENTS: std::ops::Range<usize> = 0..MOMENTS.len();

/// A satellite that two channels of card one follow, and one of card two.
const SHARED: usize = 1;

/// The pair of this slot comes only with the fourth frame of an almanac.
const LATE_IN_THE_ALMANAC: usize = 20;

pub(super) fn add_all(capture: &mut Capture) {
    capture.whole_almanac(0);
    capture.change_of_tb_within_a_moment(1, 7);
    capture.records_out_of_range(2, 5);
    capture.string_5_comes_late(3, 14);
    capture.strings_in_some_order(4, 16);
    capture.relock(5, 12);
    capture.wrong_periods(6, 3);
    capture.entry_of_a_later_frame(8);
    capture.same_satellite_behind_the_other(9);
    capture.satellites_without_a_slot(17);
    capture.wrong_days(21, 18);
    capture.near_the_last_epoch(24);
    capture.damaged_strings(23, 10);
    capture.card_two();
    capture.channels_that_there_are_not();
}

/// The same frame with another code in one word of string m.
fn altered(mut strings: Vec<NavString>, m: usize, word: &Word, code: u128) -> Vec<NavString> {
    strings[m - 1] = with_code(&strings[m - 1], word, code);
    strings
}

impl Capture {
    /// All five frames at the first moment and with the new almanac, two at each other.
    fn whole_almanac(&mut self, channel: u8) {
        for index in ALL_MOMENTS {
            let count = [5, 2, 5, 2, 2, 2][index];
            for number in 1..=count {
                let strings = self.frame(SHARED, index, number);
                let start = start_of(index) + FRAME * (number as u32 - 1);
                self.send(channel, start, &strings);
            }
        }
    }

    /// The first frame of a moment still has the words of the one before.
    fn change_of_tb_within_a_moment(&mut self, channel: u8, n: usize) {
        for index in ALL_MOMENTS {
            let start = start_of(index) + 4;
            let former = self.frame(n, index.saturating_sub(1), 5);
            let own = self.frame(n, index, 2);
            self.send(channel, start, &former[..7]);
            self.send(channel, start + FRAME, &own[..7]);
        }
    }

    /// The former record stays, and then has no string 5 of its own.
    fn records_out_of_range(&mut self, channel: u8, n: usize) {
        for (index, wrong) in ALL_MOMENTS.zip([None, Some(0), None, Some(96), Some(127), None]) {
            let good = self.frame(n, index, 1);
            let next = self.frame(n, index, 2);
            self.send(channel, start_of(index), &good[..5]);
            let next = match wrong {
                Some(0) => altered(next, 1, &TK, 24 * 128),
                Some(tb) => altered(next, 2, &TB, tb),
                None => altered(next, 5, &ALMANAC_DAY, 0),
            };
            self.send(channel, start_of(index) + FRAME, &next[..6]);
        }
    }

    /// After all others of its frame, after the next frame has begun, or not at all.
    fn string_5_comes_late(&mut self, channel: u8, n: usize) {
        for (index, delay) in ALL_MOMENTS.zip([Some(12), Some(40), None, Some(20), None, Some(30)])
        {
            let start = start_of(index) + 2;
            let strings = self.frame(n, index, 1);
            let next = self.frame(n, index, 2);
            self.send(channel, start, &strings[..4]);
            if let Some(delay) = delay {
                self.send_late(delay, channel, start, &strings[4..5]);
            }
            self.send(channel, start, &strings[5..8]);
            self.send(channel, start + 2 * FRAME, &next[..3]);
        }
    }

    fn strings_in_some_order(&mut self, channel: u8, n: usize) {
        for index in ALL_MOMENTS {
            let start = start_of(index) + 7;
            for string in self.frame(n, index, 3).into_iter().take(8) {
                let delay = self.random.below(20) as u32;
                self.send_late(delay, channel, start, &[string]);
            }
        }
    }

    /// Lost after string 7 and found again eleven marks off the old beat: what is left of that
    /// frame is off beat, the next one is taken.
    fn relock(&mut self, channel: u8, n: usize) {
        for index in ALL_MOMENTS {
            let start = start_of(index) + FRAME;
            let frames = [1, 2, 3, 4].map(|number| self.frame(n, index, number));
            self.send(channel, start_of(index), &frames[0][..5]);
            self.send(channel, start, &frames[1][..7]);
            self.send(channel, start + 11, &frames[2][11..]);
            self.send(channel, start + 11 + FRAME, &frames[3][..6]);
        }
    }

    /// Not stated, too late for two digits, right, and of other years.
    fn wrong_periods(&mut self, channel: u8, n: usize) {
        for (index, period) in ALL_MOMENTS.zip([0, 22, 7, 31, 1, 21]) {
            let strings = self.frame(n, index, 1);
            let strings = altered(strings, 5, &FOUR_YEAR_PERIOD, period);
            self.send(channel, start_of(index) + 1, &strings[..5]);
            let next = altered(self.frame(n, index, 2), 5, &FOUR_YEAR_PERIOD, 0);
            self.send(channel, start_of(index) + 1 + FRAME, &next[..5]);
        }
    }

    /// Another channel shows it while the frame is still held: the next string, which is held
    /// already, brings the record out, or the next frame does.
    fn entry_of_a_later_frame(&mut self, channel: u8) {
        for index in [0, 2, 4] {
            let strings = self.frame(LATE_IN_THE_ALMANAC, index, 1);
            self.send(channel, start_of(index), &strings[..5]);
            self.send(channel, start_of(index), &strings[1..2]);
            self.send_late(30, channel, start_of(index), &strings[..1]);
            self.send_late(100, channel, start_of(index), &strings[..2]);
        }
    }

    /// It still has the words of the moment before when the other one has the new ones: each
    /// is another epoch than the one written before.
    fn same_satellite_behind_the_other(&mut self, channel: u8) {
        for index in ALL_MOMENTS {
            let former = self.frame(SHARED, index.saturating_sub(1), 1);
            let own = self.frame(SHARED, index, 3);
            for (place, strings) in (0..).zip([&own, &former, &own]) {
                let start = start_of(index) + 3 + FRAME * place;
                self.send(channel, start, &strings[..5]);
            }
        }
    }

    fn satellites_without_a_slot(&mut self, channel: u8) {
        for (index, n) in ALL_MOMENTS.zip([0, 25, 31, 24, 0, 23]) {
            let strings = self.frame(n, index, 5);
            self.send(channel, start_of(index), &strings[..9]);
        }
    }

    fn wrong_days(&mut self, channel: u8, n: usize) {
        for (index, day) in ALL_MOMENTS.zip([0, 1461, 1462, 1, 2047, 60]) {
            let strings = altered(self.frame(n, index, 4), 4, &DAY, day);
            self.send(channel, start_of(index), &strings[..5]);
        }
    }

    fn near_the_last_epoch(&mut self, n: usize) {
        for index in ALL_MOMENTS {
            let strings = self.frame(n, index, 5);
            self.send(CHANNEL_NEAR_THE_LAST_EPOCH, start_of(index), &strings[..5]);
        }
    }

    /// Two frames a moment. Of every five strings one is repaired, of every six one is damaged;
    /// then come one that contradicts and one without a number.
    fn damaged_strings(&mut self, channel: u8, n: usize) {
        let mut count = 0;
        for index in ALL_MOMENTS {
            for number in [1, 2] {
                let start = start_of(index) + FRAME * number as u32;
                let mut strings = self.frame(n, index, number)[..8].to_vec();
                for string in &mut strings {
                    count += 1;
                    match (count % 5, count % 6) {
                        (_, 0) => *string = string.flipped(&[30, 50]),
                        (0, _) => *string = string.flipped(&[1 + count % 84]),
                        _ => (),
                    }
                }
                self.send(channel, start, &strings);
                let string_5 = self.frame(n, index, number)[4];
                self.send(channel, start, &[with_bit_inverted(&string_5, 32)]);
                self.send(channel, start, &[with_m(&string_5, 0)]);
            }
        }
    }

    /// The shared satellite shows the slots of its first frame; the second of them is in its
    /// book alone from the last moment but two on, and the third has its entry itself.
    fn card_two(&mut self) {
        for index in ALL_MOMENTS {
            let shared = self.frame(SHARED, index, 1);
            self.send(24, start_of(index), &shared[..7]);
            let in_the_book_later = self.frame(6, index, 1);
            self.send(30, start_of(index) + 5, &in_the_book_later[..5]);
            let own_entry = self.frame(11, index, 3);
            self.send(47, start_of(index) + 9, &own_entry[..7]);
        }
        let strings = self.frame(SHARED, 3, 2);
        self.send(24, start_of(3) + FRAME, &strings[4..7]);
    }

    /// Good strings that no card takes.
    fn channels_that_there_are_not(&mut self) {
        for (index, channel) in ALL_MOMENTS.zip([48, 49, 64, 127, 128, 255]) {
            let strings = self.frame(SHARED, index, 1);
            self.send(channel, start_of(index), &strings[..5]);
        }
    }
}
