//! Strings altered, with check bits that follow.

use crate::hamming;
use crate::string::{NavString, STRING_NUMBER};
use crate::words::word::Word;

/// The same string with another number in these bits.
pub fn with_number(string: &NavString, bits: (usize, usize), number: u128) -> NavString {
    let mut altered = *string;
    altered.set_number(bits, number);
    hamming::encode(&altered)
}

pub fn with_m(string: &NavString, m: usize) -> NavString {
    with_number(string, STRING_NUMBER, m as u128)
}

/// The same string with these bits of the word, in range or not.
pub fn with_code(string: &NavString, word: &Word, code: u128) -> NavString {
    with_number(string, word.bits, code)
}

pub fn with_bit_inverted(string: &NavString, bit: usize) -> NavString {
    hamming::encode(&string.flipped(&[bit]))
}

/// The codes that a word's bits can hold and RANGE refuses; tk, tb, NA, nA and H
/// have some.
pub fn codes_out_of_range(word: &Word) -> Vec<u128> {
    let is_refused = |&code: &u128| {
        let mut string = NavString::zero();
        string.set_number(word.bits, code);
        word.read(&string).is_err()
    };
    (0..1 << word.width()).filter(is_refused).collect()
}

/// The ends of the whole and of each half, with their neighbours: of a signed word 0, 1, its
/// greatest values, minus zero, -1 and its least values.
pub fn codes_at_ends(word: &Word) -> [u128; 8] {
    let (half, end) = (minus_zero(word), 1 << word.width());
    [0, 1, half - 2, half - 1, half, half + 1, end - 2, end - 1]
}

/// The sign bit alone.
pub fn minus_zero(word: &Word) -> u128 {
    1 << (word.width() - 1)
}
