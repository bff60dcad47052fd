//! An endless run of a block's fields: channels that follow satellites, with resets and
//! remarks among the offers.

use super::feed::Feed;
use crate::block::{field, offer_field, remark_field, reset_field, OFFER};
use crate::listing::RECORD_BYTES;
use crate::random::SplitMix64;
use crate::station::card::CHANNELS_OF_A_CARD;

/// The longest content that two bytes of length allow.
const LONGEST: usize = u16::MAX as usize;

/// Fields behind the one that is refused.
const NEVER_REACHED: usize = 20;

pub struct FieldFeed {
    random: SplitMix64,
    records: Feed,
}

impl FieldFeed {
    pub fn new(seed: u64) -> FieldFeed {
        FieldFeed {
            random: SplitMix64::new(seed),
            records: Feed::new(seed, CHANNELS_OF_A_CARD as u8),
        }
    }

    /// Nothing, a few bytes, more than one byte of length can tell, or what would be an
    /// offer if it were not in a remark.
    fn remark(&mut self) -> Vec<u8> {
        let (few, many) = (self.random.below(40), 200 + self.random.below(200));
        match self.random.below(4) {
            0 => remark_field(&[]),
            1 => remark_field(&self.random.bytes(few)),
            2 => remark_field(&self.random.bytes(many)),
            _ => remark_field(&self.offer()),
        }
    }

    fn offer(&mut self) -> Vec<u8> {
        let record = self.records.next().expect("an endless feed");
        offer_field(&record)
    }
}

impl Iterator for FieldFeed {
    type Item = Vec<u8>;

    fn next(&mut self) -> Option<Vec<u8>> {
        let channel = self.random.below(CHANNELS_OF_A_CARD) as u8;
        let field = match self.random.below(100) {
            0 => reset_field(channel),
            1 => reset_field(channel + CHANNELS_OF_A_CARD as u8),
            2..=5 => self.remark(),
            _ => self.offer(),
        };
        Some(field)
    }
}

/// So many fields with the longest remark in their midst, then an offer that lacks a byte
/// and fields that no one reaches.
pub fn long_block(seed: u64, count: u64) -> Vec<u8> {
    let mut feed = FieldFeed::new(seed);
    let mut block = Vec::new();
    for index in 0..count {
        match index == count / 2 {
            true => block.extend(remark_field(&feed.random.bytes(LONGEST))),
            false => block.extend(feed.next().expect("an endless feed")),
        }
    }
    block.extend(field(OFFER, &[0; RECORD_BYTES - 1]));
    block.extend(feed.take(NEVER_REACHED).flatten());
    block
}
