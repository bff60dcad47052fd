//! Numbers that look random but follow from a seed alone: splitmix64.

use crate::hamming;
use crate::station::record::KINDS_OF_A_RECORD;
use crate::string::{NavString, BITS, IDLE_BIT};
use crate::words::{self, kinds::Kind, word::Word};

/// Steele, Lea and Flood, "Fast splittable pseudorandom number generators"
/// (2014): the state goes up by a fixed odd number and is mixed into each output.
pub struct SplitMix64 {
    state: u64,
}

impl SplitMix64 {
    pub fn new(seed: u64) -> SplitMix64 {
        SplitMix64 { state: seed }
    }

    pub fn number(&mut self) -> u64 {
        self.state = self.state.wrapping_add(0x9E37_79B9_7F4A_7C15);
        let mut mixed = self.state;
        mixed = (mixed ^ (mixed >> 30)).wrapping_mul(0xBF58_476D_1CE4_E5B9);
        mixed = (mixed ^ (mixed >> 27)).wrapping_mul(0x94D0_49BB_1331_11EB);
        mixed ^ (mixed >> 31)
    }

    /// A number from 0 up to, but not including, `limit`.
    pub fn below(&mut self, limit: usize) -> usize {
        (self.number() % limit as u64) as usize
    }

    pub fn bytes(&mut self, count: usize) -> Vec<u8> {
        (0..count).map(|_| self.number() as u8).collect()
    }

    /// A string with every bit at random, check bits and bit 85 too.
    pub fn string(&mut self) -> NavString {
        let mut string = NavString::zero();
        for number in 1..=BITS {
            string.set(number, self.below(2) == 1);
        }
        string
    }

    /// An encoded string with random data and bit 85 as told.
    pub fn encoded_string(&mut self, idle: bool) -> NavString {
        let mut string = self.string();
        string.set(IDLE_BIT, idle);
        hamming::encode(&string)
    }

    /// So many different bit numbers.
    pub fn bit_numbers(&mut self, count: usize) -> Vec<usize> {
        let mut numbers = Vec::new();
        while numbers.len() < count {
            let number = 1 + self.below(BITS);
            if !numbers.contains(&number) {
                numbers.push(number);
            }
        }
        numbers
    }

    pub fn one_of<T: Copy>(&mut self, choices: &[T]) -> T {
        choices[self.below(choices.len())]
    }

    pub fn legal_value(&mut self, word: &Word) -> i64 {
        let (least, greatest) = word.limits();
        loop {
            let value = least + self.below((greatest - least + 1) as usize) as i64;
            if word.is_legal(value) {
                return value;
            }
        }
    }

    pub fn legal_values(&mut self, kind: &Kind) -> Vec<i64> {
        let words = kind.words.iter();
        words.map(|word| self.legal_value(word)).collect()
    }

    /// An encoded string of this kind, every word in range.
    pub fn string_of(&mut self, kind: &Kind) -> NavString {
        let m = self.one_of(kind.strings);
        let values = self.legal_values(kind);
        words::write(kind, m, &values).expect("legal words")
    }

    /// Strings 1 to 4, each as before.
    pub fn strings_of_a_record(&mut self) -> [NavString; 4] {
        KINDS_OF_A_RECORD.map(|kind| self.string_of(kind))
    }
}
