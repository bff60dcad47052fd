//! Requests to the reader.

use super::super::{Input, WRONG_LENGTHS};
use super::WRONG_KINDS;
use crate::alter::{
    codes_at_ends, codes_out_of_range, minus_zero, with_bit_inverted, with_code, with_m,
};
use crate::hamming;
use crate::known;
use crate::request::{self, READ};
use crate::string::{NavString, BITS, BYTES, IDLE_BIT, PADDING};
use crate::words::kinds::{Kind, KINDS, STRING_1, TK};
use crate::words::word::{time_of_day, Form, Word};

/// Every code of a word up to this width is read; wider words at their ends.
const WIDTH_OF_ALL_CODES: usize = 7;

pub(super) fn add_all(input: &mut Input) {
    input.read_received_frame();
    input.read_legal_words();
    input.read_random_bits();
    input.read_codes_of_every_word();
    input.read_times_of_day();
    input.read_minus_zeros();
    input.read_reserved_bits();
    input.read_flips();
    input.read_every_m();
    input.read_out_of_range_after_a_repair();
    input.read_misshapen_strings();
    input.read_several_wrongs_at_once();
    input.read_bad_payloads();
}

impl Input {
    fn read_bytes(&mut self, kind: u8, bytes: &[u8]) {
        let payload = [&[kind], bytes].concat();
        self.request(READ, &payload);
    }

    fn read(&mut self, kind: &Kind, string: &NavString) {
        self.read_bytes(request::number_of(kind), &string.to_bytes());
    }

    /// Each string with its kind and with the seven others.
    fn read_received_frame(&mut self) {
        for string in known::received_frame() {
            for kind in KINDS {
                self.read(kind, &string);
            }
        }
    }

    fn read_legal_words(&mut self) {
        for kind in KINDS {
            for _ in 0..60 {
                let string = self.random.string_of(kind);
                self.read(kind, &string);
            }
        }
    }

    /// Right m, every other bit at random: reserved bits are set, some words are
    /// out of range.
    fn read_random_bits(&mut self) {
        for kind in KINDS {
            for _ in 0..40 {
                let m = self.random.one_of(kind.strings);
                let string = self.random.encoded_string(false);
                self.read(kind, &with_m(&string, m));
            }
        }
    }

    fn read_codes_of_every_word(&mut self) {
        for kind in KINDS {
            for word in kind.words {
                for code in codes_to_read(word) {
                    let string = self.random.string_of(kind);
                    self.read(kind, &with_code(&string, word, code));
                }
            }
        }
    }

    /// Every hour and every minute that the bits can hold.
    fn read_times_of_day(&mut self) {
        let hours = (0..32).map(|hour| time_of_day(hour, 59, 1));
        let minutes = (0..64).map(|minute| time_of_day(23, minute, 0));
        let known_time = time_of_day(13, 37, 1);
        for code in hours.chain(minutes).chain([known_time]) {
            let string = self.random.string_of(&STRING_1);
            self.read(&STRING_1, &with_code(&string, &TK, code as u128));
        }
    }

    /// Each signed word alone, then all that the kind has.
    fn read_minus_zeros(&mut self) {
        for kind in KINDS {
            let mut all = self.random.string_of(kind);
            for word in kind.signed_words() {
                let string = self.random.string_of(kind);
                self.read(kind, &with_code(&string, word, minus_zero(word)));
                all = with_code(&all, word, minus_zero(word));
            }
            self.read(kind, &all);
        }
    }

    /// Each reserved bit alone, then all that the kind has.
    fn read_reserved_bits(&mut self) {
        for kind in KINDS {
            let mut all = self.random.string_of(kind);
            for bit in kind.reserved_bits() {
                let string = self.random.string_of(kind);
                self.read(kind, &with_bit_inverted(&string, bit));
                all = with_bit_inverted(&all, bit);
            }
            self.read(kind, &all);
        }
    }

    /// Each of the 85 flips of one string, then pairs and triples. A repair can
    /// be in m, too.
    fn read_flips(&mut self) {
        for kind in KINDS {
            let string = self.random.string_of(kind);
            for bit in (1..=BITS).rev() {
                self.read(kind, &string.flipped(&[bit]));
            }
            for round in 0..40 {
                let string = self.random.string_of(kind);
                let flips = self.random.bit_numbers(2 + round % 2);
                self.read(kind, &string.flipped(&flips));
            }
        }
    }

    /// Legal words under each m: NUMBER for 0, PLACE for those of other kinds.
    fn read_every_m(&mut self) {
        for kind in KINDS {
            for m in 0..=15 {
                let string = self.random.string_of(kind);
                self.read(kind, &with_m(&string, m));
            }
        }
    }

    /// A repair in the word itself, in m and in a check bit.
    fn read_out_of_range_after_a_repair(&mut self) {
        for kind in KINDS {
            for word in kind.words_with_range() {
                for bit in [word.bits.0, word.bits.1, 84, 1] {
                    let string = self.out_of_range(kind, word);
                    self.read(kind, &string.flipped(&[bit]));
                }
            }
        }
    }

    fn out_of_range(&mut self, kind: &Kind, word: &Word) -> NavString {
        let string = self.random.string_of(kind);
        let code = self.random.one_of(&codes_out_of_range(word));
        with_code(&string, word, code)
    }

    fn read_misshapen_strings(&mut self) {
        for kind in KINDS {
            let right = self.random.string_of(kind).to_bytes();
            for padding in 1..=PADDING {
                self.read_bytes(request::number_of(kind), &padded(&right, padding));
            }
            for length in WRONG_LENGTHS {
                let mut bytes = right.to_vec();
                bytes.resize(length, 0);
                self.read_bytes(request::number_of(kind), &bytes);
            }
        }
    }

    /// Every mixture of wrong shape, wrong bits, bit 85, m 0 or of another kind,
    /// and a word out of range, to show which refusal comes first.
    fn read_several_wrongs_at_once(&mut self) {
        for kind in KINDS {
            for string in self.right_and_out_of_range(kind) {
                for m in [string.m(), another_m(kind), 0] {
                    self.read_with_wrong_bits(kind, &with_m(&string, m));
                }
            }
        }
    }

    fn right_and_out_of_range(&mut self, kind: &Kind) -> Vec<NavString> {
        let mut strings = vec![self.random.string_of(kind)];
        for word in kind.words_with_range() {
            strings.push(self.out_of_range(kind, word));
        }
        strings
    }

    fn read_with_wrong_bits(&mut self, kind: &Kind, string: &NavString) {
        for idle in [false, true] {
            let mut string = *string;
            string.set(IDLE_BIT, idle);
            let string = hamming::encode(&string);
            for flips in 0..=2 {
                let flips = self.random.bit_numbers(flips);
                self.read_in_every_shape(kind, &string.flipped(&flips));
            }
        }
    }

    fn read_in_every_shape(&mut self, kind: &Kind, string: &NavString) {
        let number = request::number_of(kind);
        let right = string.to_bytes();
        let long = [&right[..], &[0]].concat();
        for bytes in [&right[..], &padded(&right, 1), &long] {
            self.read_bytes(number, bytes);
        }
    }

    /// No kind, and kinds that do not exist, before a string and before nothing.
    fn read_bad_payloads(&mut self) {
        self.request(READ, &[]);
        for kind in WRONG_KINDS {
            self.read_bytes(kind, &known::A);
            self.read_bytes(kind, &[]);
        }
    }
}

fn padded(bytes: &[u8; BYTES], padding: u8) -> [u8; BYTES] {
    let mut padded = *bytes;
    padded[BYTES - 1] |= padding;
    padded
}

fn another_m(kind: &Kind) -> usize {
    kind.strings_of_others().next().expect("no kind has all m")
}

/// All codes of a short word; of a longer one the ends of the whole, of each half
/// and of its range, and one beyond.
fn codes_to_read(word: &Word) -> Vec<u128> {
    let end = 1 << word.width();
    if word.width() <= WIDTH_OF_ALL_CODES {
        return (0..end).collect();
    }
    let mut codes = codes_at_ends(word).to_vec();
    if let Form::Within { least, greatest } = word.form {
        codes.extend([least - 1, least, greatest, greatest + 1].map(|code| code as u128));
    }
    codes
}
