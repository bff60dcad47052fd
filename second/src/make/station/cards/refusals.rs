//! Every card asks for every channel and slot.

use super::super::super::Input;
use super::super::blocks::Call;
use super::super::{NEXT_START, SOME_START};
use super::{Asker, ASKERS, CARD_ONE, CHANNELS, ENDS_OF_CARDS};
use crate::known;
use crate::request::{OFFER, TALLIES};
use crate::string::BYTES;

/// Of a book that has slots 1 to 5 and 21 to 24.
const SLOTS: [usize; 10] = [0, 1, 5, 6, 23, 24, 25, 47, 48, 255];

pub(super) fn add_all(input: &mut Input) {
    for asker in ASKERS {
        for channel in CHANNELS {
            input.every_request_of_a_channel(asker, channel);
        }
    }
    input.strings_with_other_wrongs();
    input.every_slot();
}

impl Input {
    /// Questions, a string of the next frame, a reset. After each of the two the rows that
    /// hold something are asked for by their cards.
    fn every_request_of_a_channel(&mut self, asker: Asker, channel: u8) {
        self.fresh_with_records();
        self.ask_row(asker, channel);
        let frame = self.frame(2);
        self.strings_by(asker, channel, NEXT_START, &frame[..1]);
        self.ask_ends_of_cards();
        self.calls_by(asker, &[Call::Reset { channel }]);
        self.ask_ends_of_cards();
    }

    /// Each refusal of an offer, one by one and in a block, and ten bytes, where the first and
    /// the last channel of each card hold a string.
    fn strings_with_other_wrongs(&mut self) {
        self.fresh();
        let held = self.frame(1)[2];
        for (asker, channel) in ENDS_OF_CARDS {
            self.strings_by(asker, channel, SOME_START, &[held]);
        }
        for asker in ASKERS {
            for channel in CHANNELS {
                let refused = self.refused_on_channel(channel, &held);
                self.calls_by(asker, &refused);
                let ten_bytes = [&[channel, 0, 0, 3, 234], &known::B[..BYTES - 1]].concat();
                self.ask(asker, OFFER, &ten_bytes);
                self.block_by(asker, &refused);
                self.ask(asker, TALLIES, &[channel]);
            }
            self.ask_ends_of_cards();
        }
    }

    /// Of an empty book, and of one that has some.
    fn every_slot(&mut self) {
        self.fresh();
        for asker in ASKERS {
            self.ask_book(asker, SLOTS);
        }
        for (channel, number) in [(0, 1), (23, 5)] {
            let frame = self.frame(number);
            self.strings_by(CARD_ONE, channel, SOME_START, &frame);
        }
        for asker in ASKERS {
            self.ask_book(asker, SLOTS);
        }
    }
}
