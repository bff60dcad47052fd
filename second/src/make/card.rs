//! What the two cards of a receiver hear of the sample, second by second.

use super::sample;
use super::station::cards::{Asker, CARD_ONE, CARD_TWO};
use super::station::navigation::RIGHT_ROOM;
use super::Input;
use crate::block::offer_field;
use crate::listing::Record;
use crate::request::{BLOCK, ENTRY, ENTRY_WORDS, HEALTH, IMMEDIATE, SUMMARY, TALLIES};
use crate::station::book::SLOTS;
use crate::station::card::{channels_of, CHANNELS_OF_A_CARD, ONE, TWO};

/// "A string lasts two seconds", and so does an epoch.
const SECONDS_OF_AN_EPOCH: usize = 2;

/// The blocks of a second: that of card one, then that of card two.
type Second = [Vec<u8>; 2];

/// Every second of every epoch from the first to the last, whether anything is heard in it or
/// not.
fn seconds() -> Vec<Second> {
    let records = sample::records();
    let first = records.first().map_or(0, |record| record.epoch);
    let mut seconds: Vec<Second> = Vec::new();
    let mut latest = first;
    for record in &records {
        latest = latest.max(record.epoch);
        let epochs = (latest - first) as usize;
        seconds.resize_with((epochs + 1) * SECONDS_OF_AN_EPOCH, Second::default);
        let in_epoch = usize::from(record.channel) % SECONDS_OF_AN_EPOCH;
        let second = &mut seconds[epochs * SECONDS_OF_AN_EPOCH + in_epoch];
        for (block, heard) in second.iter_mut().zip([*record, on_card_two(record)]) {
            block.extend(offer_field(&heard));
        }
    }
    seconds
}

/// The same string on the channel that card two has for it. A channel that is not card one's
/// stays.
fn on_card_two(record: &Record) -> Record {
    let of_card_two = CHANNELS_OF_A_CARD as u8;
    let channel = match record.channel {
        channel if channel < of_card_two => channel + of_card_two,
        channel => channel,
    };
    Record { channel, ..*record }
}

/// Each block after its length in two bytes, big-endian.
pub fn file() -> Vec<u8> {
    let mut bytes = Vec::new();
    for block in seconds().iter().flatten() {
        let length = u16::try_from(block.len()).expect("a second has few strings");
        bytes.extend(length.to_be_bytes());
        bytes.extend(block);
    }
    bytes
}

/// The blocks, and the summary after each second; then every channel of either card, and the
/// book.
pub(super) fn add_all(input: &mut Input) {
    for [block_one, block_two] in seconds() {
        input.ask(CARD_ONE, BLOCK, &block_one);
        input.ask(CARD_TWO, BLOCK, &block_two);
        input.ask(CARD_ONE, SUMMARY, &[]);
    }
    for card in [ONE, TWO] {
        for channel in channels_of(card) {
            input.ask_channel_of_card(card, channel as u8);
        }
    }
    for slot in 1..=SLOTS {
        input.ask(CARD_ONE, ENTRY, &[slot as u8]);
        input.ask(CARD_ONE, ENTRY_WORDS, &[slot as u8]);
    }
}

impl Input {
    /// All that is said of a channel, its navigation record last.
    fn ask_channel_of_card(&mut self, card: u8, channel: u8) {
        for op in [HEALTH, IMMEDIATE, TALLIES] {
            self.ask(Asker::Card(card), op, &[channel]);
        }
        self.navigation_in(card, channel, RIGHT_ROOM);
    }
}
