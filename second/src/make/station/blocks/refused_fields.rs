//! Blocks that end with a refused field: "the work stops there, keeps what went before and
//! tells the byte place of the field".

use super::super::super::Input;
use super::super::SOME_START;
use super::{block_of, Call};
use crate::block::{field, offer_field, OFFER, REMARK, RESET};
use crate::known;
use crate::listing::{Record, RECORD_BYTES};
use crate::request::TALLIES;

/// Offers before a field that may be refused go to the first, those after it to the other.
const BEFORE: u8 = 2;
const AFTER: u8 = 3;

/// Right for one tag or none; 256 and 4,096 would be right with their bytes exchanged.
const LENGTHS: [usize; 28] = [
    0, 1, 2, 3, 4, 5, 6, 7, 8, 9, 10, 11, 12, 13, 14, 15, 16, 17, 18, 19, 20, 31, 32, 255, 256,
    257, 272, 4096,
];

pub(super) fn add_all(input: &mut Input) {
    input.cut_at_every_byte();
    input.every_tag();
    input.every_length();
    input.good_fields_after_a_refused_one();
}

impl Input {
    /// The bytes between two good offers; the tallies tell which of them were reached.
    fn between_good_offers(&mut self, bytes: &[u8]) {
        let [before, after] = [BEFORE, AFTER].map(|channel| offer_field(&good_record(channel)));
        self.block(&[&before, bytes, &after].concat());
        self.request(TALLIES, &[BEFORE]);
        self.request(TALLIES, &[AFTER]);
    }

    /// After a good offer; the block ends with these bytes.
    fn at_the_end(&mut self, bytes: &[u8]) {
        let before = offer_field(&good_record(BEFORE));
        self.block(&[&before, bytes].concat());
        self.request(TALLIES, &[BEFORE]);
    }

    /// A record on one channel, a reset of another and an offer to it, and remarks.
    fn cut_at_every_byte(&mut self) {
        let (frame, other) = (self.frame(1), self.frame(2));
        let held = self.offers(1, SOME_START, &other[..4]);
        let calls = [
            vec![Call::Remark(b"cut".to_vec())],
            self.offers(0, SOME_START, &frame[..4]),
            vec![Call::Reset { channel: 1 }],
            self.offers(1, SOME_START, &frame[..1]),
            vec![Call::Remark(Vec::new())],
        ];
        let block = block_of(&calls.concat());
        self.fresh();
        for length in 0..=block.len() {
            self.reset(0);
            self.reset(1);
            self.one_by_one(&held);
            self.block(&block[..length]);
            self.ask_channel(0);
            self.ask_channel(1);
        }
    }

    /// With no content, with that of a reset and with that of an offer; then with bytes
    /// missing, which is told before the tag is looked at.
    fn every_tag(&mut self) {
        self.fresh();
        let record = good_record(BEFORE).to_bytes();
        for tag in 0..=u8::MAX {
            for content in [&[][..], &[BEFORE], &record] {
                self.between_good_offers(&field(tag, content));
            }
            for left in [1, 2, 18] {
                self.at_the_end(&field(tag, &record)[..left]);
            }
        }
    }

    /// Whole; and with the last byte missing, which is told before the length is looked at.
    fn every_length(&mut self) {
        self.fresh();
        let record = good_record(BEFORE).to_bytes();
        for tag in [OFFER, RESET, REMARK] {
            for length in LENGTHS {
                let mut content = record.clone();
                content.resize(length, 0);
                let field = field(tag, &content);
                self.between_good_offers(&field);
                self.at_the_end(&field[..field.len() - 1]);
            }
        }
    }

    /// A record and an entry that lack one string each, and a channel that holds
    /// something: the good fields complete them and empty it, if they are reached.
    fn good_fields_after_a_refused_one(&mut self) {
        let frame = self.frame(1);
        let [_, _, _, string_4, _, _, string_7, ..] = frame[..] else {
            return;
        };
        let mut before = self.offers(0, SOME_START, &[&frame[..3], &frame[4..6]].concat());
        before.extend(self.offers(1, SOME_START, &frame[..4]));
        let mut good = self.offers(0, SOME_START, &[string_4, string_7]);
        good.push(Call::Reset { channel: 1 });
        good.extend(self.offers(2, SOME_START, &frame[..1]));
        self.hand_to_same_station(&before, &block_of(&good));
        for refused in refused_fields() {
            for place in 0..=good.len() {
                let (reached, after) = good.split_at(place);
                let block = [block_of(reached), refused.clone(), block_of(after)];
                self.hand_to_same_station(&before, &block.concat());
            }
        }
    }

    fn hand_to_same_station(&mut self, before: &[Call], block: &[u8]) {
        self.fresh();
        self.one_by_one(before);
        self.block(block);
        for channel in [0, 1, 2] {
            self.ask_channel(channel);
        }
        self.ask_slots([1]);
    }
}

/// The same string every time: it is taken once, and is held already after that.
fn good_record(channel: u8) -> Record {
    Record {
        channel,
        epoch: SOME_START,
        symbols: known::B,
    }
}

/// Unknown tags, wrong lengths, lengths past the end. The last one lacks three bytes, and
/// takes them from the field behind it.
pub(in super::super) fn refused_fields() -> [Vec<u8>; 9] {
    [
        field(0, &[]),
        field(4, &[0; RECORD_BYTES]),
        field(OFFER, &[0; RECORD_BYTES - 1]),
        field(OFFER, &[0; RECORD_BYTES + 1]),
        field(RESET, &[]),
        field(RESET, &[1, 1]),
        vec![REMARK, 0xFF, 0xFF],
        vec![u8::MAX, 0xFF, 0xFF],
        field(OFFER, &[0; RECORD_BYTES])[..RECORD_BYTES].to_vec(),
    ]
}
