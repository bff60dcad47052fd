//! Requests for one word as a float.

use super::super::faults::{faults_of, out_of_range, up_to_two};
use super::super::{Input, WRONG_LENGTHS};
use crate::alter::{codes_at_ends, minus_zero, with_code, with_m};
use crate::known;
use crate::request::WORD_AS_FLOAT;
use crate::string::{NavString, IDLE_BIT};
use crate::words::kinds::{kinds_of, Kind, EVEN, KINDS};
use crate::words::signed::{signed_words, SignedWord};

pub(super) fn add_all(input: &mut Input) {
    input.each_word_at_its_ends();
    input.each_bit_of_each_word();
    input.each_word_of_the_received_frame();
    input.each_word_among_random_bits();
    input.each_word_after_a_repair();
    input.each_word_beside_one_out_of_range();
    input.each_word_under_every_m();
    input.each_kind_with_faults();
    input.words_that_there_are_not();
    input.words_of_wrong_lengths();
}

/// Next to the 22, and at the ends of a byte and of its halves.
const NO_WORDS: [u8; 8] = [0, 23, 24, 32, 127, 128, 254, 255];

/// The 22 words with their numbers.
fn numbered() -> impl Iterator<Item = (u8, SignedWord)> {
    (1..).zip(signed_words())
}

fn numbers_of(kind: &Kind) -> Vec<u8> {
    let words = numbered().filter(|(_, signed)| signed.kind == kind);
    words.map(|(number, _)| number).collect()
}

impl Input {
    fn word_of_bytes(&mut self, number: u8, bytes: &[u8]) {
        self.request(WORD_AS_FLOAT, &[&[number], bytes].concat());
    }

    fn word_of(&mut self, number: u8, string: &NavString) {
        self.word_of_bytes(number, &string.to_bytes());
    }

    fn each_word_at_its_ends(&mut self) {
        for (number, SignedWord { kind, word, .. }) in numbered() {
            for code in codes_at_ends(word) {
                let string = self.random.string_of(kind);
                self.word_of(number, &with_code(&string, word, code));
            }
        }
    }

    /// Each bit but the sign alone, with either sign.
    fn each_bit_of_each_word(&mut self) {
        for (number, SignedWord { kind, word, .. }) in numbered() {
            for bit in 0..word.width() - 1 {
                let sign = self.random.one_of(&[0, minus_zero(word)]);
                let string = self.random.string_of(kind);
                self.word_of(number, &with_code(&string, word, sign | 1 << bit));
            }
        }
    }

    fn each_word_of_the_received_frame(&mut self) {
        for string in known::received_frame() {
            for number in kinds_of(string.m()).flat_map(numbers_of) {
                self.word_of(number, &string);
            }
        }
    }

    /// Right m, every other bit at random: reserved bits are set, some words are out of range.
    fn each_word_among_random_bits(&mut self) {
        for (number, signed) in numbered() {
            for _ in 0..4 {
                let m = self.random.one_of(signed.kind.strings);
                let string = self.random.encoded_string(false);
                self.word_of(number, &with_m(&string, m));
            }
        }
    }

    /// In the word's sign, in its lowest bit, in m, in a check bit and in bit 85.
    fn each_word_after_a_repair(&mut self) {
        for (number, SignedWord { kind, word, .. }) in numbered() {
            for bit in [word.bits.0, word.bits.1, 84, 1, IDLE_BIT] {
                let string = self.random.string_of(kind);
                self.word_of(number, &string.flipped(&[bit]));
            }
        }
    }

    /// As it is sent, and with a repair.
    fn each_word_beside_one_out_of_range(&mut self) {
        for (number, SignedWord { kind, .. }) in numbered() {
            for beside in kind.words_with_range() {
                let string = self.random.string_of(kind);
                let string = out_of_range(&mut self.random, kind, &string);
                self.word_of(number, &string);
                self.word_of(number, &string.flipped(&[beside.top_bit()]));
            }
        }
    }

    fn each_word_under_every_m(&mut self) {
        for (number, signed) in numbered() {
            for m in 0..=15 {
                let string = self.random.string_of(signed.kind);
                self.word_of(number, &with_m(&string, m));
            }
        }
    }

    /// Up to two faults at once, to show which refusal comes first.
    fn each_kind_with_faults(&mut self) {
        for kind in KINDS {
            let numbers = numbers_of(kind);
            for faults in up_to_two(&faults_of(kind)) {
                let bytes = self.faulty(kind, &faults);
                let number = self.random.one_of(&numbers);
                self.word_of_bytes(number, &bytes);
            }
        }
    }

    /// With a good string of each kind, and with an even one that has faults.
    fn words_that_there_are_not(&mut self) {
        for number in NO_WORDS {
            for kind in KINDS {
                let string = self.random.string_of(kind);
                self.word_of(number, &string);
            }
        }
        for number in [0, 23, 255] {
            for faults in up_to_two(&faults_of(&EVEN)) {
                let bytes = self.faulty(&EVEN, &faults);
                self.word_of_bytes(number, &bytes);
            }
        }
    }

    /// A string of no bytes is among them; without a word there is no such request.
    fn words_of_wrong_lengths(&mut self) {
        for number in [0, 1, 13, 22, 23] {
            for length in WRONG_LENGTHS {
                let mut bytes = known::A.to_vec();
                bytes.resize(length, 0);
                self.word_of_bytes(number, &bytes);
            }
        }
        self.request(WORD_AS_FLOAT, &[]);
    }
}
