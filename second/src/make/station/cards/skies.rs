//! Two skies on both cards at once, each card also asking for what is the other's.

use super::super::super::feed::Feed;
use super::super::super::Input;
use super::super::blocks::{block_of, Call, CALLS_A_SECOND};
use super::{first_channel, Asker, ASKERS, CHANNELS};
use crate::block::field;
use crate::listing::Record;
use crate::request::{BLOCK, TALLIES};
use crate::station::book::SLOTS;
use crate::station::card::{CHANNELS_OF_A_CARD, ONE, TWO};
use crate::station::frame::STRINGS_IN_A_FRAME;

/// Channels of a sky that is heard on all of them, and of smaller ones.
const ALL: usize = CHANNELS_OF_A_CARD;
const FEW: usize = 4;

pub(super) fn add_all(input: &mut Input) {
    input.one_by_one_from_two_skies([(ONE, 0), (TWO, 24)], ALL, 1000);
    input.one_by_one_from_two_skies([(ONE, 20), (TWO, 24)], FEW, 900);
    input.one_by_one_from_two_skies([(ONE, 0), (TWO, 44)], FEW, 500);
    input.blocks_from_two_skies([(ONE, 0), (TWO, 24)], ALL, 40);
    input.blocks_from_two_skies([(ONE, 20), (TWO, 24)], FEW, 40);
    input.calls_of_two_cards_exchanged(300);
}

/// What a card hears, from its channel `first` on.
pub(in super::super) struct Sky {
    pub(in super::super) card: u8,
    first: u8,
    feed: Feed,
}

impl Sky {
    /// A frame later than the beginning of its feed, where strings of half a frame are all early.
    pub(in super::super) fn of(mut feed: Feed, channels: usize, (card, first): (u8, u8)) -> Sky {
        feed.by_ref()
            .take(channels * STRINGS_IN_A_FRAME)
            .for_each(drop);
        Sky { card, first, feed }
    }

    /// A wrong channel is the other's or none, for either card.
    pub(in super::super) fn next_record(&mut self) -> Record {
        let mut record = self.feed.next().expect("an endless feed");
        let others = first_channel(TWO)..2 * first_channel(TWO);
        record.channel = match record.channel {
            channel if channel < others.start => self.first + channel,
            channel if others.contains(&channel) && self.card == TWO => channel - others.start,
            channel => channel,
        };
        record
    }
}

/// Card one in either form.
fn forms(card: u8) -> [Asker; 2] {
    match card {
        ONE => [Asker::Unnamed, Asker::Card(ONE)],
        _ => [Asker::Card(card); 2],
    }
}

impl Input {
    fn skies(&mut self, places: [(u8, u8); 2], channels: usize) -> [Sky; 2] {
        places.map(|place| Sky::of(self.feed(channels), channels, place))
    }

    fn one_by_one_from_two_skies(&mut self, places: [(u8, u8); 2], channels: usize, count: usize) {
        let mut skies = self.skies(places, channels);
        self.fresh();
        for _ in 0..count {
            let sky = &mut skies[self.random.below(2)];
            let record = sky.next_record();
            self.by_any_card(&record);
            let owner = self.random.one_of(&forms(sky.card));
            self.calls_by(owner, &[Call::Offer(record)]);
        }
        self.ask_everything();
    }

    /// Before one offer in five: the same by any card, a reset, or a question; of its channel,
    /// of another sky's or of any.
    fn by_any_card(&mut self, record: &Record) {
        let asker = self.random.one_of(&ASKERS);
        let channel = self.some_channel(record.channel);
        let slots = [self.random.below(SLOTS + 2)];
        match self.random.below(50) {
            0..=2 => self.calls_by(asker, &[Call::Offer(*record)]),
            3 => self.calls_by(asker, &[Call::Offer(Record { channel, ..*record })]),
            4 => self.calls_by(asker, &[Call::Reset { channel }]),
            5..=7 => self.ask_row(asker, channel),
            8..=9 => self.ask_book(asker, slots),
            _ => (),
        }
    }

    fn some_channel(&mut self, own: u8) -> u8 {
        let any = self.random.below(2 * CHANNELS_OF_A_CARD) as u8;
        let end = self.random.one_of(&CHANNELS);
        self.random.one_of(&[own, any, end])
    }

    /// A second of each to a block. One in four is first handed over by any card.
    fn blocks_from_two_skies(&mut self, places: [(u8, u8); 2], channels: usize, count: usize) {
        let mut skies = self.skies(places, channels);
        self.fresh();
        for _ in 0..count {
            for sky in &mut skies {
                let block = self.block_of_a_second(sky);
                if self.random.below(4) == 0 {
                    let asker = self.random.one_of(&ASKERS);
                    self.ask(asker, BLOCK, &block);
                }
                let owner = self.random.one_of(&forms(sky.card));
                self.ask(owner, BLOCK, &block);
                let channel = self.some_channel(sky.first);
                self.ask_row(owner, channel);
            }
        }
        self.ask_everything();
    }

    /// One in eight has a field of no known tag, and what is left of it is lost.
    fn block_of_a_second(&mut self, sky: &mut Sky) -> Vec<u8> {
        let calls = self.calls_of_a_second(sky);
        let place = self.random.below(calls.len());
        let (before, behind) = calls.split_at(place);
        match self.random.below(8) {
            0 => [block_of(before), field(0, &[]), block_of(behind)].concat(),
            _ => block_of(&calls),
        }
    }

    fn calls_of_a_second(&mut self, sky: &mut Sky) -> Vec<Call> {
        let mut calls = Vec::new();
        for _ in 0..CALLS_A_SECOND {
            let record = sky.next_record();
            let channel = self.some_channel(record.channel);
            match self.random.below(40) {
                0 => calls.push(Call::Reset { channel }),
                1 => calls.push(Call::Offer(Record { channel, ..record })),
                2 => calls.push(Call::Remark(record.to_bytes())),
                _ => (),
            }
            calls.push(Call::Offer(record));
        }
        calls
    }

    /// The same calls to two stations, the second time with neighbours exchanged: of one card
    /// and of two, and such as are shut out.
    fn calls_of_two_cards_exchanged(&mut self, count: usize) {
        let mut skies = self.skies([(ONE, 21), (TWO, 24)], FEW - 1);
        let mut calls = Vec::new();
        for _ in 0..count {
            let sky = &mut skies[self.random.below(2)];
            let record = sky.next_record();
            let any = self.random.one_of(&ASKERS);
            let owner = self.random.one_of(&forms(sky.card));
            if self.random.below(10) == 0 {
                calls.push((any, record));
            }
            calls.push((owner, record));
        }
        self.calls_to_fresh_station(&calls);
        self.exchange_neighbours(&mut calls, |(_, record)| record.channel);
        self.calls_to_fresh_station(&calls);
    }

    fn calls_to_fresh_station(&mut self, calls: &[(Asker, Record)]) {
        self.fresh();
        for (asker, record) in calls {
            self.calls_by(*asker, &[Call::Offer(*record)]);
        }
        self.ask_everything();
    }

    /// By each card its own rows, the tallies of the other's, and the book.
    fn ask_everything(&mut self) {
        for card in [ONE, TWO] {
            let asker = Asker::Card(card);
            for index in 0..CHANNELS_OF_A_CARD as u8 {
                self.ask_row(asker, first_channel(card) + index);
            }
            for channel in CHANNELS {
                self.ask(asker, TALLIES, &[channel]);
            }
            self.ask_book(asker, 1..=SLOTS);
        }
    }
}
