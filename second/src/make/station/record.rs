//! How the immediate record comes and stays.

use super::super::Input;
use super::{NEXT_START, SOME_START};
use crate::alter::{codes_out_of_range, with_code};
use crate::request::IMMEDIATE;
use crate::station::frame::STRINGS_IN_A_FRAME;
use crate::station::record::STRINGS_OF_A_RECORD;
use crate::string::NavString;
use crate::words::kinds::{STRING_1, STRING_2};
use crate::words::word::Word;

pub(super) fn add_all(input: &mut Input) {
    input.four_strings_in_every_order();
    input.strings_of_two_frames();
    input.every_time_out_of_range();
    input.later_records();
}

impl Input {
    fn four_strings_in_every_order(&mut self) {
        for order in orders() {
            let frame = self.frame(1);
            self.reset(0);
            for m in order {
                self.offer_in_frame(0, SOME_START, &[frame[m - 1]]);
                self.request(IMMEDIATE, &[0]);
            }
            self.offer_in_frame(0, SOME_START, &frame[..5]);
        }
        self.ask_channel(0);
    }

    /// Some of the four from one frame and the rest from the next.
    fn strings_of_two_frames(&mut self) {
        for from_first in 0..16 {
            let (first, next) = (self.frame(1), self.frame(2));
            self.reset(1);
            for m in STRINGS_OF_A_RECORD {
                match from_first >> (m - 1) & 1 {
                    1 => self.offer_in_frame(1, SOME_START, &[first[m - 1]]),
                    _ => self.offer_in_frame(1, NEXT_START, &[next[m - 1]]),
                }
            }
            self.request(IMMEDIATE, &[1]);
        }
    }

    /// tk and tb with codes that RANGE refuses, before and after a good record.
    fn every_time_out_of_range(&mut self) {
        let words_of = |index: usize| [&STRING_1, &STRING_2][index].words_with_range();
        for index in 0..2 {
            for word in words_of(index) {
                for _ in 0..12 {
                    self.record_out_of_range(index, word);
                }
            }
        }
    }

    fn record_out_of_range(&mut self, index: usize, word: &Word) {
        let good = self.frame(1);
        let mut wrong: Vec<NavString> = self.frame(2);
        let code = self.random.one_of(&codes_out_of_range(word));
        wrong[index] = with_code(&wrong[index], word, code);
        for frames in [[&good, &wrong], [&wrong, &good]] {
            self.reset(2);
            for (start, frame) in [SOME_START, NEXT_START].into_iter().zip(frames) {
                let four = self.shuffled(frame[..4].to_vec());
                self.offer_in_frame(2, start, &four);
                self.ask_channel(2);
            }
        }
    }

    /// Frame after frame with strings missing: the record stays as long as it must.
    fn later_records(&mut self) {
        self.reset(3);
        for number in 0..30 {
            let frame = self.frame(1 + number % 5);
            let start = SOME_START + (STRINGS_IN_A_FRAME * number) as u32;
            let mut strings = self.shuffled(frame[..5].to_vec());
            strings.truncate(3 + self.random.below(3));
            self.offer_in_frame(3, start, &strings);
            self.ask_channel(3);
        }
    }
}

/// All orders of strings 1 to 4.
pub(in super::super) fn orders() -> Vec<[usize; 4]> {
    let mut orders = Vec::new();
    for code in 0..256 {
        let order = [0, 2, 4, 6].map(|shift| (code >> shift & 3) + 1);
        if STRINGS_OF_A_RECORD.iter().all(|m| order.contains(m)) {
            orders.push(order);
        }
    }
    orders
}
