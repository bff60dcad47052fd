//! Plain strings for the logger: each kind and each trouble, and strings 1 to 4 in turn and
//! out of turn.

use super::faults::{faults_in_eleven_bytes, with_faults, Fault};
use super::satellite::{Satellite, Upload, FRAMES_IN_A_SUPERFRAME};
use super::station::record::orders;
use crate::alter::{codes_at_ends, with_code};
use crate::known;
use crate::random::SplitMix64;
use crate::station::record::{KINDS_OF_A_RECORD, STRINGS_OF_A_RECORD};
use crate::string::{NavString, BITS, BYTES};
use crate::words::kinds::{kind_of, KINDS};
use crate::words::signed::{signed_words, SignedWord};

const STRINGS: usize = 2000;

/// The same seed always gives the same bytes.
pub fn strings(seed: u64) -> Vec<u8> {
    let mut log = Log::new(seed);
    log.good_strings(&known::received_frame());
    log.words_at_their_ends();
    log.every_flip();
    log.every_fault();
    log.records_in_every_order();
    log.records_with_one_fault();
    log.records_with_one_string_too_many();
    while log.bytes.len() < STRINGS * BYTES {
        log.superframe();
    }
    log.bytes.truncate(STRINGS * BYTES);
    log.bytes
}

struct Log {
    bytes: Vec<u8>,
    random: SplitMix64,
}

impl Log {
    fn new(seed: u64) -> Log {
        Log {
            bytes: Vec::new(),
            random: SplitMix64::new(seed),
        }
    }

    fn good_strings(&mut self, strings: &[NavString]) {
        self.bytes
            .extend(strings.iter().flat_map(NavString::to_bytes));
    }

    fn string_with(&mut self, string: &NavString, faults: &[Fault]) {
        let kind = kind_of(string.m());
        let bytes = with_faults(&mut self.random, kind, string, faults);
        self.bytes.extend(bytes);
    }

    /// Each signed word of a string of its own, those of strings 1 to 4 in a record.
    fn words_at_their_ends(&mut self) {
        for SignedWord { kind, word, .. } in signed_words() {
            for code in codes_at_ends(word) {
                let string = with_code(&self.random.string_of(kind), word, code);
                let mut four = self.random.strings_of_a_record();
                match STRINGS_OF_A_RECORD.contains(&string.m()) {
                    true => {
                        four[string.m() - 1] = string;
                        self.good_strings(&four);
                    }
                    false => self.good_strings(&[string]),
                }
            }
        }
    }

    /// Each of the 85 flips, in strings of all kinds in turn.
    fn every_flip(&mut self) {
        for (bit, kind) in (1..=BITS).zip(KINDS.into_iter().cycle()) {
            let string = self.random.string_of(kind);
            self.good_strings(&[string.flipped(&[bit])]);
        }
    }

    fn every_fault(&mut self) {
        for kind in KINDS {
            for fault in faults_in_eleven_bytes(kind) {
                let string = self.random.string_of(kind);
                self.string_with(&string, &[fault]);
            }
        }
    }

    fn records_in_every_order(&mut self) {
        for order in orders() {
            let four = self.random.strings_of_a_record();
            self.good_strings(&order.map(|m| four[m - 1]));
        }
    }

    /// Of each of the four: no record comes of them.
    fn records_with_one_fault(&mut self) {
        for (place, kind) in KINDS_OF_A_RECORD.into_iter().enumerate() {
            for fault in faults_in_eleven_bytes(kind) {
                for (other, string) in self.random.strings_of_a_record().iter().enumerate() {
                    let faults = &[fault][..usize::from(other == place)];
                    self.string_with(string, faults);
                }
            }
        }
    }

    /// Before, among or behind the four: one of them again, or string 5.
    fn records_with_one_string_too_many(&mut self) {
        for place in 0..=4 {
            for m in 1..=5 {
                let mut strings = self.random.strings_of_a_record().to_vec();
                strings.insert(place, self.random.string_of(kind_of(m)));
                self.good_strings(&strings);
            }
        }
    }

    /// As a satellite sends it; some strings are repaired, some have a fault, some are lost.
    fn superframe(&mut self) {
        let random = &mut self.random;
        let day = (1 + random.below(31) as u128, 1 + random.below(1461) as u128);
        let upload = Upload::new(random, day);
        let satellite = Satellite::new(random, 1);
        for frame in 1..=FRAMES_IN_A_SUPERFRAME {
            for string in satellite.frame(&upload, frame) {
                self.string_on_its_way(&string);
            }
        }
    }

    fn string_on_its_way(&mut self, string: &NavString) {
        match self.random.below(20) {
            0 => (),
            1 => {
                let faults = faults_in_eleven_bytes(kind_of(string.m()));
                let fault = self.random.one_of(&faults);
                self.string_with(string, &[fault]);
            }
            2..=4 => {
                let flips = self.random.bit_numbers(1);
                self.good_strings(&[string.flipped(&flips)]);
            }
            _ => self.good_strings(&[*string]),
        }
    }
}
