//! The same strings on four channels, upright and inverted, clean and repaired: each
//! news comes in each of these ways.

use super::super::Input;
use super::{NEXT_START, SOME_START};
use crate::alter::{codes_out_of_range, with_code};
use crate::relative;
use crate::string::NavString;
use crate::words::kinds::TK;

/// The first symbol is 1 where inverted; these bits of the plain string are wrong.
#[derive(Clone, Copy)]
struct Way {
    channel: u8,
    inverted: bool,
    flips: &'static [usize],
}

const WAYS: [Way; 4] = [
    way(0, false, &[]),
    way(1, true, &[]),
    way(2, false, &[40]),
    way(3, true, &[40]),
];

const fn way(channel: u8, inverted: bool, flips: &'static [usize]) -> Way {
    Way {
        channel,
        inverted,
        flips,
    }
}

/// A frame that builds a record and is held already the second time, in the same
/// polarity and in the other; then a frame whose record is out of range.
pub(in super::super) fn add_all(input: &mut Input) {
    let good = input.frame(1);
    let mut wrong = input.frame(2);
    let code = input.random.one_of(&codes_out_of_range(&TK));
    wrong[0] = with_code(&wrong[0], &TK, code);
    input.fresh();
    for way in WAYS {
        let other = Way {
            inverted: !way.inverted,
            ..way
        };
        input.offer_in_way(way, SOME_START, &good[..5]);
        input.offer_in_way(way, SOME_START, &good[..2]);
        input.offer_in_way(other, SOME_START, &good[3..5]);
        input.ask_channel(way.channel);
        input.offer_in_way(way, NEXT_START, &wrong[..5]);
        input.ask_channel(way.channel);
    }
}

impl Input {
    fn offer_in_way(&mut self, way: Way, start: u32, strings: &[NavString]) {
        for string in strings {
            let sent = string.flipped(way.flips);
            let upright = relative::to_relative(&sent).expect("bit 85 is 0");
            let symbols = match way.inverted {
                true => upright.inverted(),
                false => upright,
            };
            let epoch = start + (string.m() as u32 - 1);
            self.offer_symbols(way.channel, epoch, &symbols.to_bytes());
        }
    }
}
