//! The order of tests, wrong payloads, wrong channels and slots.

use super::super::{Input, WRONG_LENGTHS};
use super::SOME_START;
use crate::alter::with_m;
use crate::known;
use crate::relative;
use crate::request::{ENTRY, FRESH, HEALTH, IMMEDIATE, OFFER, RESET, TALLIES};
use crate::station::book::SLOTS;
use crate::string::{NavString, BYTES};

/// For card one: those of card two, and those that there are not.
pub(super) const WRONG_CHANNELS: [u8; 6] = [24, 25, 32, 127, 128, 255];
pub(super) const WRONG_SLOTS: [usize; 6] = [0, 25, 32, 127, 128, 255];

/// Where string 3 of the frame at SOME_START is held: early, stale, off beat, in
/// conflict (or held already), new.
const EPOCHS: [u32; 5] = [1, 900, SOME_START + 7, SOME_START + 2, SOME_START + 50];

pub(super) fn add_all(input: &mut Input) {
    input.untouched_station();
    input.several_wrongs_in_one_offer();
    input.wrong_lengths_and_padding_offered();
    input.wrong_channels_and_slots();
    input.wrong_payloads();
    input.tallies_of_every_answer();
}

impl Input {
    /// Nothing was offered yet; and again after a fresh station was asked for.
    fn untouched_station(&mut self) {
        self.ask_all();
        self.fresh();
        self.ask_all();
    }

    /// Every mixture of wrong channel, padding, bits, m 0, and epoch, to show which
    /// refusal comes first.
    fn several_wrongs_in_one_offer(&mut self) {
        for epoch in EPOCHS {
            for with_number in [true, false] {
                for flips in [&[][..], &[30], &[30, 31], &known::FLIPS_TAKEN_FOR_BIT_85] {
                    let held = self.string_numbered(3);
                    let other = self.string_numbered(3);
                    let offered = match with_number {
                        true => other,
                        false => with_m(&other, 0),
                    };
                    self.offer_with_wrong_shape(epoch, &held, &offered.flipped(flips));
                }
            }
        }
        self.ask_channel(0);
    }

    fn offer_with_wrong_shape(&mut self, epoch: u32, held: &NavString, offered: &NavString) {
        let symbols = relative::to_relative(offered).expect("bit 85 is 0");
        for padding in [0, 1] {
            for channel in [24, 0] {
                self.reset(0);
                self.offer_in_frame(0, SOME_START, &[*held]);
                let mut bytes = symbols.to_bytes();
                bytes[BYTES - 1] |= padding;
                self.offer_symbols(channel, epoch, &bytes);
            }
        }
    }

    fn wrong_lengths_and_padding_offered(&mut self) {
        self.reset(1);
        for length in WRONG_LENGTHS {
            let mut symbols = known::B.to_vec();
            symbols.resize(length, 0);
            self.offer_symbols(1, 100, &symbols);
            self.offer_symbols(24, 100, &symbols);
        }
        for padding in 1..8 {
            let mut symbols = known::B_INVERTED;
            symbols[BYTES - 1] |= padding;
            self.offer_symbols(1, 100, &symbols);
        }
        self.offer_symbols(1, 100, &[0; BYTES]);
        self.offer_symbols(1, 100, &NavString::zero().inverted().to_bytes());
        self.ask_channel(1);
    }

    fn wrong_channels_and_slots(&mut self) {
        for channel in WRONG_CHANNELS {
            self.offer_symbols(channel, 100, &known::B);
            self.reset(channel);
            self.ask_channel(channel);
        }
        self.ask_slots(WRONG_SLOTS);
        self.ask_slots(1..=SLOTS);
    }

    /// Payloads too short or too long for their op.
    fn wrong_payloads(&mut self) {
        for length in 0..5 {
            self.request(OFFER, &[0; 5][..length]);
        }
        for op in [RESET, IMMEDIATE, ENTRY, TALLIES, HEALTH] {
            for payload in [&[][..], &[0, 0], &[1, 0, 0], &[24, 0], &[255; 16]] {
                self.request(op, payload);
            }
        }
        for payload in [&[0][..], &[1, 2], &[255; 16]] {
            self.request(FRESH, payload);
        }
        self.ask_channel(1);
    }

    /// Clean, repaired and refused offers on all channels, in unequal numbers.
    fn tallies_of_every_answer(&mut self) {
        self.fresh();
        for round in 0..400 {
            let channel = self.random.below(24) as u8;
            let string = self.string_numbered(1 + round % 15);
            let count = self.random.one_of(&[0, 0, 1, 1, 2]);
            let flips: Vec<usize> = [20, 60][..count].to_vec();
            let start = 15 * self.random.below(4) as u32;
            self.offer_in_frame(channel, start, &[string.flipped(&flips)]);
            if round % 40 == 39 {
                self.reset(channel);
            }
        }
        self.ask_all();
    }
}
