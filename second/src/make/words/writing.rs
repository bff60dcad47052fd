//! Requests to the encoder.

use super::super::{Input, RIGHT_ROOM, WRONG_ROOMS};
use super::WRONG_KINDS;
use crate::alter::{minus_zero, with_code};
use crate::known;
use crate::request::{self, WRITE};
use crate::string::NavString;
use crate::words;
use crate::words::kinds::{kinds_of, Kind, H, KINDS, ODD, STRING_1, TK};
use crate::words::word::{time_of_day, Word};

pub(super) fn add_all(input: &mut Input) {
    input.write_received_frame();
    input.write_legal_words();
    input.write_back_what_was_read();
    input.write_ends_of_every_word();
    input.write_times_of_day();
    input.write_carriers();
    input.write_every_m();
    input.write_two_words_out_of_range();
    input.write_wrong_rooms();
    input.write_several_wrongs_at_once();
    input.write_bad_payloads();
}

impl Input {
    fn write_in(&mut self, room: u8, kind: &Kind, m: u8, values: &[i64]) {
        let head = [room, request::number_of(kind), m];
        let payload = [&head[..], &request::values_to_bytes(values)].concat();
        self.request(WRITE, &payload);
    }

    fn write(&mut self, kind: &Kind, values: &[i64]) {
        let m = self.right_m(kind);
        self.write_in(RIGHT_ROOM, kind, m, values);
    }

    fn right_m(&mut self, kind: &Kind) -> u8 {
        self.random.one_of(kind.strings) as u8
    }

    /// The words that the string reads as.
    fn write_back(&mut self, kind: &Kind, string: &NavString) {
        if let Ok((m, values)) = words::read(kind, &string.to_bytes()) {
            self.write_in(RIGHT_ROOM, kind, m as u8, &values);
        }
    }

    fn write_received_frame(&mut self) {
        for string in known::received_frame() {
            for kind in kinds_of(string.m()) {
                self.write_back(kind, &string);
            }
        }
    }

    fn write_legal_words(&mut self) {
        for kind in KINDS {
            for _ in 0..60 {
                let values = self.random.legal_values(kind);
                self.write(kind, &values);
            }
        }
    }

    /// Read from strings with minus zeros and with all reserved bits set.
    fn write_back_what_was_read(&mut self) {
        for kind in KINDS {
            for word in kind.signed_words() {
                let mut string = self.random.string_of(kind);
                for bit in kind.reserved_bits() {
                    string.set(bit, true);
                }
                self.write_back(kind, &with_code(&string, word, minus_zero(word)));
            }
        }
    }

    fn write_ends_of_every_word(&mut self) {
        for kind in KINDS {
            for word in kind.words {
                self.write_values(kind, word, values_at_ends(word));
            }
        }
    }

    /// Hours and minutes at their ends and beyond; 13:37:30 is the paper's.
    fn write_times_of_day(&mut self) {
        let times = [(13, 37), (0, 0), (23, 59), (24, 0), (31, 63), (0, 60)];
        let more_times = [(23, 60), (22, 63), (24, 60), (12, 59), (12, 60), (32, 0)];
        for (hour, minute) in times.into_iter().chain(more_times) {
            let halves = [0, 1].map(|half| time_of_day(hour, minute, half));
            self.write_values(&STRING_1, &TK, halves.to_vec());
        }
    }

    /// H as its meaning, -7 to 13; its codes 25 to 31 are refused as values.
    fn write_carriers(&mut self) {
        self.write_values(&ODD, &H, (-33..=33).collect());
    }

    /// One word takes each of these values; the others are legal.
    fn write_values(&mut self, kind: &Kind, word: &Word, values: Vec<i64>) {
        let index = kind.words.iter().position(|other| other == word);
        let index = index.expect("a word of the kind");
        for value in values {
            let mut all = self.random.legal_values(kind);
            all[index] = value;
            self.write(kind, &all);
        }
    }

    fn write_every_m(&mut self) {
        for kind in KINDS {
            for m in (0..=17).chain([31, 127, 128, 255]) {
                let values = self.random.legal_values(kind);
                self.write_in(RIGHT_ROOM, kind, m, &values);
            }
        }
    }

    /// RANGE names the higher one.
    fn write_two_words_out_of_range(&mut self) {
        for kind in KINDS {
            for second in 0..kind.words.len() {
                for first in 0..second {
                    let values = self.out_of_range_at(kind, &[first, second]);
                    self.write(kind, &values);
                }
            }
        }
    }

    /// Legal values but for the words with these indices.
    fn out_of_range_at(&mut self, kind: &Kind, indices: &[usize]) -> Vec<i64> {
        let mut values = self.random.legal_values(kind);
        for &index in indices {
            values[index] = self.random.one_of(&values_beyond(&kind.words[index]));
        }
        values
    }

    fn write_wrong_rooms(&mut self) {
        for kind in KINDS {
            for room in WRONG_ROOMS {
                let m = self.right_m(kind);
                let values = self.random.legal_values(kind);
                self.write_in(room, kind, m, &values);
            }
        }
    }

    /// Every mixture of wrong room, wrong m and words out of range, to show which
    /// refusal comes first.
    fn write_several_wrongs_at_once(&mut self) {
        for kind in KINDS {
            let last = kind.words.len() - 1;
            for indices in [&[][..], &[0], &[last], &[0, last]] {
                for m in [self.right_m(kind), 0, 16] {
                    for room in [RIGHT_ROOM, 10, 12] {
                        let values = self.out_of_range_at(kind, indices);
                        self.write_in(room, kind, m, &values);
                    }
                }
            }
        }
    }

    /// Payloads too short or too long for their kind, and kinds that do not exist.
    fn write_bad_payloads(&mut self) {
        for kind in KINDS {
            let m = self.right_m(kind);
            let values = request::values_to_bytes(&self.random.legal_values(kind));
            let right = [&[RIGHT_ROOM, request::number_of(kind), m], &values[..]].concat();
            for length in [right.len() - 4, right.len() - 1, 3] {
                self.request(WRITE, &right[..length]);
            }
            for more in [1, 4] {
                self.request(WRITE, &[&right[..], &vec![0; more]].concat());
            }
            for wrong in WRONG_KINDS {
                self.request(WRITE, &[&[RIGHT_ROOM, wrong, m], &values[..]].concat());
            }
        }
        for length in 0..=2 {
            self.request(WRITE, &[RIGHT_ROOM, 1][..length]);
        }
    }
}

/// The ends of the range, of the bits and of four bytes, with their neighbours, as
/// far as four bytes hold them.
fn values_at_ends(word: &Word) -> Vec<i64> {
    let (least, greatest) = word.limits();
    let (half, end) = (1 << (word.width() - 1), 1 << word.width());
    let mut values = vec![i64::from(i32::MIN), i64::from(i32::MAX)];
    for middle in [least, 0, greatest, -half, half, -end, end] {
        values.extend([middle - 1, middle, middle + 1]);
    }
    values.retain(|&value| i32::try_from(value).is_ok());
    values.sort();
    values.dedup();
    values
}

/// The same, but only those that are refused.
pub(in super::super) fn values_beyond(word: &Word) -> Vec<i64> {
    let mut values = values_at_ends(word);
    values.retain(|&value| !word.is_legal(value));
    values
}
