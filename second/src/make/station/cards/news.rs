//! Each news of a taken string, on the first and the last channel of each card.

use super::super::super::Input;
use super::super::{NEXT_START, SOME_START};
use super::ENDS_OF_CARDS;
use crate::alter::{codes_out_of_range, with_code};
use crate::string::NavString;
use crate::words::kinds::TK;

/// Clean, and with a wrong bit.
const FLIPS: [&[usize]; 2] = [&[], &[40]];

/// A frame that builds a record and is held already the second time, then one whose record
/// is out of range: one by one and in a block.
pub(super) fn add_all(input: &mut Input) {
    let good = input.frame(1);
    let mut wrong = input.frame(2);
    wrong[0] = with_code(&wrong[0], &TK, codes_out_of_range(&TK)[0]);
    for flips in FLIPS {
        let [good, wrong] = [&good, &wrong].map(|frame| with_flips(&frame[..5], flips));
        for (asker, channel) in ENDS_OF_CARDS {
            let held = input.offers(channel, SOME_START, &good);
            let next = input.offers(channel, NEXT_START, &wrong);
            let calls = [&held[..], &held, &next].concat();
            input.fresh();
            input.calls_by(asker, &calls);
            input.ask_ends_of_cards();
            input.fresh();
            input.block_by(asker, &calls);
            input.ask_ends_of_cards();
        }
    }
}

fn with_flips(strings: &[NavString], flips: &[usize]) -> Vec<NavString> {
    let flipped = strings.iter().map(|string| string.flipped(flips));
    flipped.collect()
}
