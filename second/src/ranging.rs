//! The ranging code of ICD 3.3.2.1: what a shift register of nine stages sends.

use std::iter;

/// "1 + x^5 + x^9": so many steps later a bit is fed back.
const TAPS: [usize; 2] = [5, 9];
const STAGES: usize = 9;

/// "Output from the seventh stage."
const OUTPUT: usize = 7;

/// After so many chips they come again.
pub const CHIPS: usize = 511;

/// From the first on, without an end, each of them 0 or 1. "Register of nine ones."
pub fn chips() -> impl Iterator<Item = u8> {
    let mut stages = [1; STAGES];
    iter::repeat_with(move || {
        let in_stage = |number: usize| stages[number - 1];
        let chip = in_stage(OUTPUT);
        let fed_back = TAPS.into_iter().fold(0, |sum, tap| sum ^ in_stage(tap));
        stages.rotate_right(1);
        stages[0] = fed_back;
        chip
    })
}

/// The chip of this number, counted from 0.
pub fn chip(number: usize) -> u8 {
    let mut chips = chips();
    chips.nth(number % CHIPS).expect("they have no end")
}
