//! Requests for the immediate record from four strings.

use super::super::faults::{faults_of, up_to_two, Fault};
use super::super::station::record::orders;
use super::super::Input;
use crate::alter::{codes_at_ends, with_bit_inverted, with_code, with_m};
use crate::known;
use crate::request::{join_strings, FOUR_STRINGS};
use crate::station::record::KINDS_OF_A_RECORD;
use crate::string::{NavString, BITS, BYTES};
use crate::words::kinds::Kind;

pub(super) fn add_all(input: &mut Input) {
    input.records_of_legal_words();
    input.record_of_the_received_frame();
    input.records_with_words_at_their_ends();
    input.records_with_reserved_bits();
    input.records_after_repairs();
    input.records_under_every_m();
    input.records_in_every_order();
    input.records_with_one_fault();
    input.records_with_faults_in_two_strings();
    input.records_with_many_faults();
    input.records_of_wrong_lengths();
    input.payloads_that_are_no_record();
}

/// The places of the four strings, with their kinds.
fn places() -> impl Iterator<Item = (usize, &'static Kind)> {
    KINDS_OF_A_RECORD.into_iter().enumerate()
}

const NO_FAULTS: [Vec<Fault>; 4] = [const { Vec::new() }; 4];

impl Input {
    fn record_of_bytes(&mut self, strings: &[Vec<u8>]) {
        self.request(FOUR_STRINGS, &join_strings(strings));
    }

    fn record_of(&mut self, strings: &[NavString; 4]) {
        self.record_of_bytes(&strings.map(|string| string.to_bytes().to_vec()));
    }

    /// Good but for these faults of each string.
    fn record_with(&mut self, faults: [Vec<Fault>; 4]) {
        let strings = places().map(|(place, kind)| self.faulty(kind, &faults[place]));
        let strings: Vec<Vec<u8>> = strings.collect();
        self.record_of_bytes(&strings);
    }

    fn records_of_legal_words(&mut self) {
        for _ in 0..40 {
            let four = self.random.strings_of_a_record();
            self.record_of(&four);
        }
    }

    fn record_of_the_received_frame(&mut self) {
        let strings = known::received_frame();
        let four = strings.first_chunk().expect("fifteen strings");
        self.record_of(four);
    }

    /// Each signed word alone, then all twelve alike.
    fn records_with_words_at_their_ends(&mut self) {
        for (place, kind) in places() {
            for word in kind.signed_words() {
                for code in codes_at_ends(word) {
                    let mut four = self.random.strings_of_a_record();
                    four[place] = with_code(&four[place], word, code);
                    self.record_of(&four);
                }
            }
        }
        for end in 0..8 {
            let mut four = self.random.strings_of_a_record();
            for (place, kind) in places() {
                for word in kind.signed_words() {
                    four[place] = with_code(&four[place], word, codes_at_ends(word)[end]);
                }
            }
            self.record_of(&four);
        }
    }

    /// All that each of the four has.
    fn records_with_reserved_bits(&mut self) {
        for (place, kind) in places() {
            let mut four = self.random.strings_of_a_record();
            for bit in kind.reserved_bits() {
                four[place] = with_bit_inverted(&four[place], bit);
            }
            self.record_of(&four);
        }
    }

    /// Each of the 85 flips in one of the four; then a flip in each.
    fn records_after_repairs(&mut self) {
        for bit in 1..=BITS {
            let mut four = self.random.strings_of_a_record();
            four[bit % 4].flip(bit);
            self.record_of(&four);
        }
        for _ in 0..20 {
            let four = self.random.strings_of_a_record();
            let flipped = four.map(|string| string.flipped(&self.random.bit_numbers(1)));
            self.record_of(&flipped);
        }
    }

    fn records_under_every_m(&mut self) {
        for (place, _) in places() {
            for m in 0..=15 {
                let mut four = self.random.strings_of_a_record();
                four[place] = with_m(&four[place], m);
                self.record_of(&four);
            }
        }
    }

    fn records_in_every_order(&mut self) {
        for order in orders() {
            let four = self.random.strings_of_a_record();
            self.record_of(&order.map(|m| four[m - 1]));
        }
    }

    fn records_with_one_fault(&mut self) {
        for (place, kind) in places() {
            for fault in faults_of(kind) {
                let mut faults = NO_FAULTS;
                faults[place].push(fault);
                self.record_with(faults);
            }
        }
    }

    /// Every fault of one with every fault of a later one: the earlier string is refused, but
    /// for a wrong length.
    fn records_with_faults_in_two_strings(&mut self) {
        for (later, kind_of_later) in places() {
            for (earlier, kind_of_earlier) in places().take(later) {
                for first in faults_of(kind_of_earlier) {
                    for second in faults_of(kind_of_later) {
                        let mut faults = NO_FAULTS;
                        faults[earlier].push(first);
                        faults[later].push(second);
                        self.record_with(faults);
                    }
                }
            }
        }
    }

    /// Each string has one of its faults, or two, or none.
    fn records_with_many_faults(&mut self) {
        for _ in 0..60 {
            let faults = KINDS_OF_A_RECORD.map(|kind| {
                let all = up_to_two(&faults_of(kind));
                all[self.random.below(all.len())].clone()
            });
            self.record_with(faults);
        }
    }

    /// In each place, and in every two; some of these have 44 bytes in all.
    fn records_of_wrong_lengths(&mut self) {
        for (place, _) in places() {
            for length in [0, 1, 10, 12, 22, 255] {
                self.record_of_lengths(&[(place, length)]);
            }
            for other in (0..4).filter(|&other| other != place) {
                for (length, length_of_other) in [(10, 12), (0, 22)] {
                    self.record_of_lengths(&[(place, length), (other, length_of_other)]);
                }
            }
        }
        self.record_of_bytes(&[const { Vec::new() }; 4]);
    }

    /// Good strings with their ends cut off, or zeros after them.
    fn record_of_lengths(&mut self, lengths: &[(usize, usize)]) {
        let mut strings = self
            .random
            .strings_of_a_record()
            .map(|string| string.to_bytes().to_vec());
        for &(place, length) in lengths {
            strings[place].resize(length, 0);
        }
        self.record_of_bytes(&strings);
    }

    /// Cut at every byte, with more behind the four, and with a last length past the end.
    fn payloads_that_are_no_record(&mut self) {
        let strings = self
            .random
            .strings_of_a_record()
            .map(|string| string.to_bytes().to_vec());
        let right = join_strings(&strings);
        for length in 0..right.len() {
            self.request(FOUR_STRINGS, &right[..length]);
        }
        for more in [&[0][..], &[11], &right[..1 + BYTES], &right] {
            self.request(FOUR_STRINGS, &[&right[..], more].concat());
        }
        let last = right.len() - 1 - BYTES;
        for length in [0, 10, 12, 255] {
            let mut wrong = right.clone();
            wrong[last] = length;
            self.request(FOUR_STRINGS, &wrong);
        }
        self.request(FOUR_STRINGS, &right);
    }
}
