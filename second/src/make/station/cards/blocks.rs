//! Blocks of every card: each call is refused as it would be alone, and fields as in any block.

use super::super::super::Input;
use super::super::blocks::{block_of, Call};
use super::super::{NEXT_START, SOME_START};
use super::{Asker, ASKERS, CARD_TWO, CHANNELS};
use crate::block::{field, REMARK, RESET};
use crate::request::{BLOCK, TALLIES};

const CARD_THREE: Asker = Asker::Card(3);

/// A card and a block.
const LONGEST_PAYLOAD: usize = u16::MAX as usize;
const CARD: usize = 1;
const HEADER_OF_A_FIELD: usize = 3;

/// A remark that no block is long enough for.
const ENDS_INSIDE: [u8; 3] = [REMARK, 0xFF, 0xFF];

pub(super) fn add_all(input: &mut Input) {
    for asker in ASKERS {
        input.every_channel_in_a_block_of(asker);
        input.refused_fields_in_blocks_of(asker);
    }
    for asker in [CARD_TWO, CARD_THREE] {
        input.block_cut_at_every_byte(asker);
    }
    input.longest_block_of_a_card();
}

impl Input {
    /// Strings of the next frame, a remark, a reset and a string of the first frame.
    fn calls_on(&mut self, channel: u8) -> Vec<Call> {
        let frame = self.frame(2);
        let mut calls = self.offers(channel, NEXT_START, &frame[..2]);
        calls.push(Call::Remark(vec![channel]));
        calls.push(Call::Reset { channel });
        calls.extend(self.offers(channel, SOME_START, &frame[..1]));
        calls
    }

    fn calls_on_every_channel(&mut self) -> Vec<Call> {
        let calls = CHANNELS.map(|channel| self.calls_on(channel));
        calls.concat()
    }

    fn every_channel_in_a_block_of(&mut self, asker: Asker) {
        self.fresh_with_records();
        let calls = self.calls_on_every_channel();
        self.block_by(asker, &calls);
        self.ask_ends_of_cards();
        self.fresh_with_records();
        let mixed = self.shuffled(calls);
        self.block_by(asker, &mixed);
        self.ask_ends_of_cards();
    }

    /// After good fields, as the first and alone; and no field at all, and remarks alone.
    fn refused_fields_in_blocks_of(&mut self, asker: Asker) {
        self.fresh_with_records();
        for refused in [field(0, &[]), field(RESET, &[24, 24]), ENDS_INSIDE.to_vec()] {
            let calls = block_of(&self.calls_on_every_channel());
            let behind = block_of(&self.calls_on_every_channel());
            self.ask(asker, BLOCK, &[&calls[..], &refused].concat());
            self.ask(asker, BLOCK, &[&refused[..], &behind].concat());
            self.ask(asker, BLOCK, &refused);
            self.ask_ends_of_cards();
        }
        let remark = Call::Remark(block_of(&self.calls_on(47)));
        self.ask(asker, BLOCK, &[]);
        self.block_by(asker, &[remark.clone(), remark]);
        self.ask_ends_of_cards();
    }

    /// The tallies tell what was reached, of the card's channel and of the other's.
    fn block_cut_at_every_byte(&mut self, asker: Asker) {
        let frame = self.frame(1);
        let mut calls = self.offers(24, SOME_START, &frame[..1]);
        calls.push(Call::Reset { channel: 47 });
        calls.push(Call::Remark(vec![0]));
        calls.extend(self.offers(23, SOME_START, &frame[..1]));
        let block = block_of(&calls);
        self.fresh();
        for length in 0..=block.len() {
            self.ask(asker, BLOCK, &block[..length]);
            self.ask(CARD_TWO, TALLIES, &[24]);
        }
        self.ask_ends_of_cards();
    }

    /// Offers before the remark that fills it, and after it.
    fn longest_block_of_a_card(&mut self) {
        let frame = self.frame(1);
        let mut calls = self.offers(24, SOME_START, &frame[..2]);
        let last = self.offers(47, SOME_START, &frame[2..4]);
        let others = [&calls[..], &last].concat();
        let left = LONGEST_PAYLOAD - CARD - HEADER_OF_A_FIELD - block_of(&others).len();
        calls.push(Call::Remark(vec![1; left]));
        calls.extend(last);
        self.fresh();
        self.block_by(CARD_TWO, &calls);
        self.ask_ends_of_cards();
    }
}
