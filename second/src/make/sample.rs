//! A small input for one who sees the programs for the first time.

use super::hearing::in_some_polarity;
use super::satellite::{Satellite, Upload, FRAMES_IN_A_SUPERFRAME};
use super::station::cards::CARD_TWO;
use super::Input;
use crate::alter::{with_bit_inverted, with_m};
use crate::known;
use crate::listing::Record;
use crate::random::SplitMix64;
use crate::request::{IMMEDIATE, OFFER};
use crate::station::book::SLOTS;
use crate::station::frame::STRINGS_IN_A_FRAME;
use crate::string::NavString;

const SEED: u64 = 1;
const SEED_OF_CARD_TWO: u64 = 2;

/// When the first frames start.
const START: u32 = 100;
const FRAME: u32 = STRINGS_IN_A_FRAME as u32;

/// N4 and NA: the day before that of the received frame.
const ALMANAC_DAY: (u128, u128) = (6, 103);

const RECEIVED: u8 = 0;
const STEADY: u8 = 1;
const DAMAGED: u8 = 2;
const RELOCKED: u8 = 5;
const OTHERS_CHANNEL: u8 = 24;

/// What card one hears. The records in the order of their epochs.
pub fn records() -> Vec<Record> {
    let mut story = Story::new(SEED);
    story.received_frame();
    story.almanac_over_five_frames();
    story.damaged_strings();
    story.relock();
    story.strings_that_fit_nowhere();
    story.records.sort_by_key(|record| record.epoch);
    story.late_string();
    story.records
}

/// Strings 1 to 4 of a satellite, on a channel of card two.
fn records_of_card_two() -> Vec<Record> {
    let mut story = Story::new(SEED_OF_CARD_TWO);
    let satellite = Satellite::new(&mut story.random, 2);
    let strings = satellite.frame(&story.upload, 1);
    story.frame(OTHERS_CHANNEL, START, &strings[..4]);
    story.records
}

/// The records of each card as its offers, then queries of their channels, of every slot and
/// of the summary. Card two also asks for a channel of card one.
pub(super) fn add_all(input: &mut Input) {
    for record in records() {
        input.offer_record(&record);
    }
    for record in records_of_card_two() {
        input.ask(CARD_TWO, OFFER, &record.to_bytes());
    }
    for channel in [RECEIVED, STEADY, DAMAGED, RELOCKED] {
        input.ask_channel(channel);
    }
    input.ask_row(CARD_TWO, OTHERS_CHANNEL);
    input.ask(CARD_TWO, IMMEDIATE, &[RECEIVED]);
    input.ask_slots(1..=SLOTS);
    input.ask_summary();
}

struct Story {
    random: SplitMix64,
    upload: Upload,
    records: Vec<Record>,
}

impl Story {
    fn new(seed: u64) -> Story {
        let mut random = SplitMix64::new(seed);
        Story {
            upload: Upload::new(&mut random, ALMANAC_DAY),
            random,
            records: Vec::new(),
        }
    }

    fn record(&mut self, channel: u8, epoch: u32, string: &NavString) {
        let symbols = in_some_polarity(&mut self.random, string).to_bytes();
        self.records.push(Record {
            channel,
            epoch,
            symbols,
        });
    }

    fn frame(&mut self, channel: u8, start: u32, strings: &[NavString]) {
        for string in strings {
            self.record(channel, start + (string.m() as u32 - 1), string);
        }
    }

    /// The frames of one superframe, each with its start.
    fn superframe(&mut self, n: u128) -> Vec<(u32, Vec<NavString>)> {
        let satellite = Satellite::new(&mut self.random, n);
        (0..FRAMES_IN_A_SUPERFRAME)
            .map(|index| {
                let strings = satellite.frame(&self.upload, index + 1);
                (START + FRAME * index as u32, strings)
            })
            .collect()
    }

    fn received_frame(&mut self) {
        self.frame(RECEIVED, START, &known::received_frame());
    }

    fn almanac_over_five_frames(&mut self) {
        for (start, strings) in self.superframe(3) {
            self.frame(STEADY, start, &strings);
        }
    }

    /// Every fifth string is repaired, every seventh is damaged.
    fn damaged_strings(&mut self) {
        let mut count = 0;
        for (start, mut strings) in self.superframe(7) {
            for string in &mut strings {
                count += 1;
                match (count % 5, count % 7) {
                    (_, 0) => *string = string.flipped(&[30, 50]),
                    (0, _) => *string = string.flipped(&[count]),
                    _ => (),
                }
            }
            self.frame(DAMAGED, start, &strings);
        }
    }

    /// Lost after string 7 of the second frame, found again eleven marks off the
    /// old beat: what is left of that frame is off beat, the next one is taken.
    fn relock(&mut self) {
        let frames = self.superframe(12);
        let second_start = START + FRAME;
        self.frame(RELOCKED, START, &frames[0].1);
        self.frame(RELOCKED, second_start, &frames[1].1[..7]);
        self.frame(RELOCKED, second_start + 11, &frames[2].1[9..]);
        self.frame(RELOCKED, second_start + 11 + FRAME, &frames[3].1);
    }

    /// A channel of the other card, m 0, an epoch too early, and one bit other than held.
    fn strings_that_fit_nowhere(&mut self) {
        let [string_1, .., string_15] = &known::received_frame()[..] else {
            return;
        };
        self.record(OTHERS_CHANNEL, START, string_1);
        self.record(RECEIVED, START + 14, &with_m(string_15, 0));
        self.record(RECEIVED, 3, string_15);
        self.record(RECEIVED, START + 14, &with_bit_inverted(string_15, 80));
    }

    /// Handed over last, and still of the frame that its channel holds.
    fn late_string(&mut self) {
        let late = self
            .records
            .iter()
            .position(|record| record.channel == STEADY && record.epoch == START + 4 * FRAME + 8);
        if let Some(index) = late {
            let record = self.records.remove(index);
            self.records.push(record);
        }
    }
}
