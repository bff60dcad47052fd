//! Channels that follow satellites over superframes, with queries among the offers.

use super::super::feed::Feed;
use super::super::Input;
use crate::listing::Record;
use crate::request::ENTRY;
use crate::station::book::SLOTS;
use crate::station::card::CHANNELS_OF_A_CARD;

pub(super) fn add_all(input: &mut Input) {
    input.all_channels(4000);
    input.few_channels_with_resets(6, 2500);
    input.few_channels_with_resets(2, 700);
    input.calls_exchanged(500);
}

impl Input {
    pub(super) fn feed(&mut self, channels: usize) -> Feed {
        Feed::new(self.random.number(), channels as u8)
    }

    /// A steady run; a few questions on the way, all of them at the end.
    fn all_channels(&mut self, count: usize) {
        self.fresh();
        for record in self.feed(CHANNELS_OF_A_CARD).take(count) {
            self.offer_record(&record);
            if self.random.below(16) == 0 {
                self.ask_something(CHANNELS_OF_A_CARD);
            }
        }
        self.ask_all();
    }

    /// Among the offers are resets and strings that are cut short or too long.
    fn few_channels_with_resets(&mut self, channels: usize, count: usize) {
        self.fresh();
        for record in self.feed(channels).take(count) {
            let channel = self.random.below(channels) as u8;
            match self.random.below(100) {
                0 => self.reset(channel),
                1 => self.offer_in_wrong_length(&record),
                2..=12 => self.ask_something(channels),
                _ => (),
            }
            self.offer_record(&record);
        }
        self.ask_all();
    }

    fn ask_something(&mut self, channels: usize) {
        let channel = self.random.below(channels) as u8;
        let slot = 1 + self.random.below(SLOTS) as u8;
        match self.random.below(2) {
            0 => self.ask_channel(channel),
            _ => self.request(ENTRY, &[slot]),
        }
    }

    fn offer_in_wrong_length(&mut self, record: &Record) {
        let mut symbols = record.symbols.to_vec();
        symbols.resize(self.random.one_of(&[0, 1, 10, 12, 22]), 0);
        self.offer_symbols(record.channel, record.epoch, &symbols);
    }

    /// The same offers to two stations, the second time with neighbours exchanged.
    fn calls_exchanged(&mut self, count: usize) {
        let mut records: Vec<Record> = self
            .feed(CHANNELS_OF_A_CARD)
            .skip(2000)
            .take(count)
            .collect();
        self.offer_to_fresh_station(&records);
        self.exchange_neighbours(&mut records, |record| record.channel);
        self.offer_to_fresh_station(&records);
    }

    /// Those on different channels change places, again and again.
    pub(super) fn exchange_neighbours<T>(&mut self, calls: &mut [T], channel: fn(&T) -> u8) {
        let count = calls.len();
        for _ in 0..20 * count {
            let first = self.random.below(count - 1);
            if channel(&calls[first]) != channel(&calls[first + 1]) {
                calls.swap(first, first + 1);
            }
        }
    }

    fn offer_to_fresh_station(&mut self, records: &[Record]) {
        self.fresh();
        for record in records {
            self.offer_record(record);
        }
        self.ask_all();
    }
}
