//! Two cards over one station, and cards that there are not.

mod blocks;
mod news;
mod payloads;
mod refusals;
mod sharing;
pub(super) mod skies;

use super::super::Input;
use super::blocks::{block_of, Call};
use super::SOME_START;
use crate::request::card::FOR_ANY_CARD;
use crate::request::{
    BLOCK, ENTRY, ENTRY_WORDS, HEALTH, IMMEDIATE, OFFER, RESET, SUMMARY, TALLIES,
};
use crate::station::card::{CHANNELS_OF_A_CARD, ONE, TWO};
use crate::string::NavString;

/// Who asks.
#[derive(Clone, Copy, PartialEq, Eq)]
pub(in super::super) enum Asker {
    /// Card one, by the requests that speak for it.
    Unnamed,
    /// Any card, by its number.
    Card(u8),
}

pub(in super::super) const CARD_ONE: Asker = Asker::Card(ONE);
pub(in super::super) const CARD_TWO: Asker = Asker::Card(TWO);

const ASKERS: [Asker; 6] = [
    Asker::Unnamed,
    Asker::Card(0),
    CARD_ONE,
    CARD_TWO,
    Asker::Card(3),
    Asker::Card(255),
];

/// Around the first and the last of each card, and above.
const CHANNELS: [u8; 6] = [0, 23, 24, 47, 48, 255];

/// Those of them that there are, with their cards.
const ENDS_OF_CARDS: [(Asker, u8); 4] = [
    (CARD_ONE, 0),
    (CARD_ONE, 23),
    (CARD_TWO, 24),
    (CARD_TWO, 47),
];

pub(in super::super) fn add_all(input: &mut Input) {
    refusals::add_all(input);
    blocks::add_all(input);
    payloads::add_all(input);
    news::add_all(input);
    sharing::add_all(input);
    skies::add_all(input);
}

/// The first channel of a card.
pub(super) fn first_channel(card: u8) -> u8 {
    match card {
        TWO => CHANNELS_OF_A_CARD as u8,
        _ => 0,
    }
}

impl Input {
    pub(in super::super) fn ask(&mut self, asker: Asker, op: u8, payload: &[u8]) {
        match asker {
            Asker::Unnamed => self.request(op, payload),
            Asker::Card(card) => self.request(op + FOR_ANY_CARD, &[&[card], payload].concat()),
        }
    }

    /// Offers and resets one by one.
    pub(super) fn calls_by(&mut self, asker: Asker, calls: &[Call]) {
        for call in calls {
            match call {
                Call::Offer(record) => self.ask(asker, OFFER, &record.to_bytes()),
                Call::Reset { channel } => self.ask(asker, RESET, &[*channel]),
                Call::Remark(_) => (),
            }
        }
    }

    pub(super) fn block_by(&mut self, asker: Asker, calls: &[Call]) {
        self.ask(asker, BLOCK, &block_of(calls));
    }

    pub(super) fn strings_by(
        &mut self,
        asker: Asker,
        channel: u8,
        start: u32,
        strings: &[NavString],
    ) {
        let offers = self.offers(channel, start, strings);
        self.calls_by(asker, &offers);
    }

    pub(in super::super) fn ask_row(&mut self, asker: Asker, channel: u8) {
        for op in [IMMEDIATE, TALLIES, HEALTH] {
            self.ask(asker, op, &[channel]);
        }
    }

    pub(super) fn ask_book(&mut self, asker: Asker, slots: impl IntoIterator<Item = usize>) {
        for slot in slots {
            self.ask(asker, ENTRY, &[slot as u8]);
            self.ask(asker, ENTRY_WORDS, &[slot as u8]);
        }
        self.ask(asker, SUMMARY, &[]);
    }

    /// A fresh station with a record on the first and the last channel of each card.
    fn fresh_with_records(&mut self) {
        self.fresh();
        for (asker, channel) in ENDS_OF_CARDS {
            let frame = self.frame(1);
            self.strings_by(asker, channel, SOME_START, &frame[..4]);
        }
    }

    /// What their cards are told of these channels.
    fn ask_ends_of_cards(&mut self) {
        for (asker, channel) in ENDS_OF_CARDS {
            self.ask_row(asker, channel);
        }
    }
}
