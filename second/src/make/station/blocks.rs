//! Blocks of all kinds, each with questions after it that show the station it leaves.

mod calls;
pub(super) mod refused_fields;

use super::super::hearing::in_some_polarity;
use super::super::Input;
use crate::block::{offer_field, remark_field, reset_field};
use crate::listing::Record;
use crate::request::BLOCK;
use crate::string::NavString;

/// Channels and slots that most blocks here have to do with.
const CHANNELS_IN_USE: [u8; 5] = [0, 1, 2, 3, 23];
const SLOTS_IN_USE: [usize; 6] = [1, 2, 3, 4, 5, 6];

/// "Twelve strings a second in all."
pub(super) const CALLS_A_SECOND: usize = 12;

pub(in super::super) fn add_all(input: &mut Input) {
    calls::add_all(input);
    refused_fields::add_all(input);
}

/// What is a field of a block, and without a block a request of its own.
#[derive(Clone)]
pub(super) enum Call {
    Offer(Record),
    Reset {
        channel: u8,
    },
    /// No request at all.
    Remark(Vec<u8>),
}

impl Call {
    fn field(&self) -> Vec<u8> {
        match self {
            Call::Offer(record) => offer_field(record),
            Call::Reset { channel } => reset_field(*channel),
            Call::Remark(remark) => remark_field(remark),
        }
    }
}

pub(super) fn block_of(calls: &[Call]) -> Vec<u8> {
    calls.iter().flat_map(Call::field).collect()
}

impl Input {
    pub(super) fn block(&mut self, block: &[u8]) {
        self.request(BLOCK, block);
    }

    pub(super) fn one_by_one(&mut self, calls: &[Call]) {
        for call in calls {
            match call {
                Call::Offer(record) => self.offer_record(record),
                Call::Reset { channel } => self.reset(*channel),
                Call::Remark(_) => (),
            }
        }
    }

    /// In either polarity.
    fn offer_call(&mut self, channel: u8, epoch: u32, string: &NavString) -> Call {
        let symbols = in_some_polarity(&mut self.random, string).to_bytes();
        Call::Offer(Record {
            channel,
            epoch,
            symbols,
        })
    }

    /// As strings of the frame with this start.
    pub(super) fn offers(&mut self, channel: u8, start: u32, strings: &[NavString]) -> Vec<Call> {
        strings
            .iter()
            .map(|string| self.offer_call(channel, start + string.m() as u32 - 1, string))
            .collect()
    }

    fn ask_in_use(&mut self) {
        for channel in CHANNELS_IN_USE {
            self.ask_channel(channel);
        }
        self.ask_slots(SLOTS_IN_USE);
    }
}
