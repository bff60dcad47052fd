//! Blocks that are good to their end: "the same station and answers as its calls one by
//! one".

use super::super::super::field_feed::FieldFeed;
use super::super::super::Input;
use super::super::refusals::WRONG_CHANNELS;
use super::super::{NEXT_START, SOME_START};
use super::{block_of, Call, CALLS_A_SECOND};
use crate::alter::{codes_out_of_range, with_bit_inverted, with_code, with_m};
use crate::block::field;
use crate::known;
use crate::listing::Record;
use crate::station::card::CHANNELS_OF_A_CARD;
use crate::station::frame::STRINGS_IN_A_FRAME;
use crate::string::{NavString, BYTES};
use crate::words::kinds::TK;

const LONG_REMARK: usize = 60_000;
const LONGEST_PAYLOAD: usize = u16::MAX as usize;
const HEADER_OF_A_FIELD: usize = 3;

pub(super) fn add_all(input: &mut Input) {
    input.empty_blocks();
    input.frames_in_a_block();
    input.every_channel_in_a_block();
    input.refused_offers_in_a_block();
    input.wrong_channels_in_a_block();
    input.resets_in_a_block();
    input.short_remarks();
    input.long_remark();
    input.blocks_end_to_end();
    input.block_after_block();
}

impl Input {
    /// The same calls in a block and one by one, to a station that has had others before.
    fn in_both_ways(&mut self, before: &[Call], calls: &[Call]) {
        self.fresh();
        self.one_by_one(before);
        self.block(&block_of(calls));
        self.ask_in_use();
        self.fresh();
        self.one_by_one(before);
        self.one_by_one(calls);
        self.ask_in_use();
    }

    /// An empty block is no call and no refusal.
    fn empty_blocks(&mut self) {
        self.fresh();
        self.block(&[]);
        self.ask_in_use();
        let frame = self.frame(1);
        self.offer_in_frame(0, SOME_START, &frame);
        self.block(&[]);
        self.block(&[]);
        self.ask_in_use();
    }

    /// The next frame on a channel that has a record, a frame on another channel, and one
    /// whose record is out of range on a third; then the same in some other order.
    fn frames_in_a_block(&mut self) {
        let [former, next, other] = [1, 1, 2].map(|number| self.frame(number));
        let mut wrong = self.frame(3);
        wrong[0] = with_code(&wrong[0], &TK, codes_out_of_range(&TK)[0]);
        let before = self.offers(0, SOME_START, &former);
        let mut calls = self.offers(0, NEXT_START, &next);
        calls.push(Call::Remark(b"the others".to_vec()));
        calls.extend(self.offers(1, SOME_START + 4, &other));
        calls.extend(self.offers(2, SOME_START, &wrong));
        self.in_both_ways(&before, &calls);
        let mixed = self.shuffled(calls);
        self.in_both_ways(&before, &mixed);
    }

    /// A string of each channel to a block; then all that queries tell.
    fn every_channel_in_a_block(&mut self) {
        let frames: Vec<Vec<NavString>> = (0..CHANNELS_OF_A_CARD).map(|_| self.frame(1)).collect();
        self.fresh();
        for index in 0..STRINGS_IN_A_FRAME {
            let mut calls = Vec::new();
            for (channel, frame) in (0..).zip(&frames) {
                calls.extend(self.offers(channel, SOME_START, &[frame[index]]));
            }
            self.block(&block_of(&calls));
        }
        self.ask_all();
    }

    /// Each refusal of an offer, and a good string after each.
    fn refused_offers_in_a_block(&mut self) {
        let frame = self.frame(1);
        let before = self.offers(0, SOME_START, &frame[..1]);
        let mut good = self.offers(0, SOME_START, &frame[1..]).into_iter();
        let mut calls = Vec::new();
        for wrong in self.refused_offers(0, &frame[0]) {
            calls.push(wrong);
            calls.extend(good.next());
        }
        self.in_both_ways(&before, &calls);
    }

    /// By 15, 2, 31 to 33 and 4 to 9, where this string is held on the channel, in the frame
    /// at SOME_START. The last one is in conflict with it.
    pub(in super::super) fn refused_offers(&mut self, channel: u8, held: &NavString) -> Vec<Call> {
        let right_epoch = SOME_START + held.m() as u32 - 1;
        let [damage_31, damage_32, damage_33] =
            known::FLIPS_OF_CHECK_BITS.map(|(_, flips)| held.flipped(flips));
        let mut calls = vec![self.offer_call(24, right_epoch, held), padded(channel)];
        for string in [
            damage_31,
            damage_32,
            damage_33,
            held.flipped(&known::FLIPS_TAKEN_FOR_BIT_85),
            with_m(held, 0),
        ] {
            calls.push(self.offer_call(channel, right_epoch, &string));
        }
        let early = with_m(held, 15);
        calls.push(self.offer_call(channel, 13, &early));
        for epoch in [right_epoch - 1, right_epoch + 14] {
            calls.push(self.offer_call(channel, epoch, held));
        }
        let other = with_bit_inverted(held, 40);
        calls.push(self.offer_call(channel, right_epoch, &other));
        calls
    }

    /// Offers and resets, and good ones among them.
    fn wrong_channels_in_a_block(&mut self) {
        let frame = self.frame(1);
        let before = self.offers(23, SOME_START, &frame[..4]);
        let mut good = self.offers(0, SOME_START, &frame).into_iter();
        let mut calls = Vec::new();
        for channel in WRONG_CHANNELS {
            calls.extend(self.offers(channel, SOME_START, &frame[..1]));
            calls.extend(good.next());
            calls.push(Call::Reset { channel });
            calls.extend(good.next());
        }
        self.in_both_ways(&before, &calls);
    }

    /// A reset lets an earlier frame in; one takes the record; one finds nothing.
    fn resets_in_a_block(&mut self) {
        let (first, next) = (self.frame(1), self.frame(2));
        let mut before = self.offers(0, NEXT_START, &next);
        before.extend(self.offers(1, NEXT_START, &next[..4]));
        let earlier = self.offers(0, SOME_START, &first[..5]);
        let reset = |channel| Call::Reset { channel };
        let calls = [
            &earlier[..],
            &[reset(0)],
            &earlier,
            &[reset(1), reset(1), reset(2), reset(23)],
        ];
        self.in_both_ways(&before, &calls.concat());
        self.block(&block_of(&[reset(0), reset(0)]));
        self.ask_in_use();
    }

    /// What is in a remark is no call, even where it could be one.
    fn short_remarks(&mut self) {
        let frame = self.frame(1);
        let in_remark = block_of(&self.offers(2, SOME_START, &frame));
        let before = self.offers(1, SOME_START, &frame[..4]);
        let mut good = self.offers(0, SOME_START, &frame).into_iter();
        let mut calls = Vec::new();
        for length in [0, 1, 2, 3, 16, 19, 22, 255, 256, 257] {
            calls.push(Call::Remark(in_remark[..length].to_vec()));
            calls.extend(good.next());
        }
        self.in_both_ways(&before, &calls);
    }

    /// A block as long as a payload can be, with offers before the remark and after it.
    fn long_remark(&mut self) {
        let frame = self.frame(1);
        let mut calls = self.offers(0, SOME_START, &frame[..2]);
        calls.push(Call::Remark(self.random.bytes(LONG_REMARK)));
        calls.extend(self.offers(0, SOME_START, &frame[2..5]));
        let last = self.offers(23, SOME_START, &frame[5..6]);
        let length = block_of(&calls).len() + HEADER_OF_A_FIELD + block_of(&last).len();
        calls.push(Call::Remark(vec![1; LONGEST_PAYLOAD - length]));
        calls.extend(last);
        self.fresh();
        self.block(&block_of(&calls));
        self.ask_in_use();
    }

    /// Three blocks one after another, and as one; in another order with a reset among
    /// them; and with a refused field in the second, each way.
    fn blocks_end_to_end(&mut self) {
        let frames = [1, 2, 1].map(|number| self.frame(number));
        let first = block_of(&self.offers(0, SOME_START, &frames[0]));
        let calls = self.offers(0, NEXT_START, &frames[1]);
        let next = block_of(&calls);
        let other = block_of(&self.offers(1, SOME_START, &frames[2]));
        let reset = block_of(&[Call::Reset { channel: 0 }]);
        let (reached, lost) = calls.split_at(3);
        let refused = [block_of(reached), field(4, &[]), block_of(lost)].concat();
        for blocks in [
            &[&first[..], &next, &other][..],
            &[&[&first[..], &next, &other].concat()],
            &[&[&other[..], &first, &reset, &next].concat()],
            &[&first, &refused, &other],
            &[&[&first[..], &refused, &other].concat()],
        ] {
            self.fresh();
            for block in blocks {
                self.block(block);
            }
            self.ask_in_use();
        }
    }

    /// A long run, a second to a block; one block in eight has a field of no known tag,
    /// and what is left of it is lost.
    fn block_after_block(&mut self) {
        self.fresh();
        let mut feed = FieldFeed::new(self.random.number());
        for second in 0..200 {
            let mut fields: Vec<Vec<u8>> = feed.by_ref().take(CALLS_A_SECOND).collect();
            if second % 8 == 7 {
                let place = self.random.below(CALLS_A_SECOND);
                fields.insert(place, field(0, &[]));
            }
            self.block(&fields.concat());
            let channel = self.random.below(CHANNELS_OF_A_CARD) as u8;
            self.ask_channel(channel);
        }
        self.ask_all();
    }
}

fn padded(channel: u8) -> Call {
    let mut symbols = known::B;
    symbols[BYTES - 1] |= 1;
    Call::Offer(Record {
        channel,
        epoch: SOME_START,
        symbols,
    })
}
