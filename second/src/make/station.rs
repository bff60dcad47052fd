//! Requests to the station.

mod almanac;
pub(super) mod blocks;
pub(super) mod calls;
pub(super) mod cards;
pub(super) mod entry_words;
mod frames;
mod health;
pub(super) mod health_flags;
pub(super) mod limit;
pub(super) mod navigation;
pub(super) mod polarity;
pub(super) mod record;
mod refusals;
pub(super) mod sites;
mod sky;
pub(super) mod summary;
pub(super) mod tallies;

use super::hearing::in_some_polarity;
use super::satellite::{Day, Satellite, Upload};
use super::Input;
use crate::listing::Record;
use crate::request::{ENTRY, FRESH, HEALTH, IMMEDIATE, OFFER, RESET, TALLIES};
use crate::station::book::SLOTS;
use crate::station::card::CHANNELS_OF_A_CARD;
use crate::station::frame::STRINGS_IN_A_FRAME;
use crate::string::NavString;

/// The start of a frame where any will do, and that of the next frame.
const SOME_START: u32 = 1000;
const NEXT_START: u32 = SOME_START + STRINGS_IN_A_FRAME as u32;

pub(super) fn add_all(input: &mut Input) {
    refusals::add_all(input);
    frames::add_all(input);
    record::add_all(input);
    almanac::add_all(input);
    health::add_all(input);
    sky::add_all(input);
}

impl Input {
    pub(super) fn fresh(&mut self) {
        self.request(FRESH, &[]);
    }

    fn reset(&mut self, channel: u8) {
        self.request(RESET, &[channel]);
    }

    pub(super) fn offer_symbols(&mut self, channel: u8, epoch: u32, symbols: &[u8]) {
        let payload = [&[channel], &epoch.to_be_bytes()[..], symbols].concat();
        self.request(OFFER, &payload);
    }

    pub(super) fn offer_record(&mut self, record: &Record) {
        self.request(OFFER, &record.to_bytes());
    }

    /// In either polarity.
    pub(super) fn offer(&mut self, channel: u8, epoch: u32, string: &NavString) {
        let symbols = in_some_polarity(&mut self.random, string);
        self.offer_symbols(channel, epoch, &symbols.to_bytes());
    }

    /// As strings of the frame with this start; epochs past 2^32 are not offered.
    fn offer_in_frame(&mut self, channel: u8, start: u32, strings: &[NavString]) {
        for string in strings {
            if let Some(epoch) = start.checked_add(string.m() as u32 - 1) {
                self.offer(channel, epoch, string);
            }
        }
    }

    pub(super) fn ask_channel(&mut self, channel: u8) {
        for op in [IMMEDIATE, TALLIES, HEALTH] {
            self.request(op, &[channel]);
        }
    }

    pub(super) fn ask_slots(&mut self, slots: impl IntoIterator<Item = usize>) {
        for slot in slots {
            self.request(ENTRY, &[slot as u8]);
        }
    }

    /// Every channel and every slot.
    fn ask_all(&mut self) {
        for channel in 0..CHANNELS_OF_A_CARD {
            self.ask_channel(channel as u8);
        }
        self.ask_slots(1..=SLOTS);
    }

    fn some_day(&mut self) -> Day {
        let period = 1 + self.random.below(31);
        (period as u128, 1 + self.random.below(1461) as u128)
    }

    /// An almanac of its own for some day.
    fn upload(&mut self) -> Upload {
        let day = self.some_day();
        Upload::new(&mut self.random, day)
    }

    fn satellite(&mut self, n: u128) -> Satellite {
        Satellite::new(&mut self.random, n)
    }

    /// The frame of this number, 1 to 5, from a satellite and an almanac of its own.
    fn frame(&mut self, number: usize) -> Vec<NavString> {
        let upload = self.upload();
        let n = 1 + self.random.below(SLOTS) as u128;
        self.satellite(n).frame(&upload, number)
    }

    /// The same things in another order.
    fn shuffled<T>(&mut self, mut things: Vec<T>) -> Vec<T> {
        for last in (1..things.len()).rev() {
            things.swap(last, self.random.below(last + 1));
        }
        things
    }
}
