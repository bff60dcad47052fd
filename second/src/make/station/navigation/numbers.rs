//! Every number of a record: at its ends, bit by bit, with minus zero, and halfway between two
//! texts; every B, E and H.

use super::super::super::Input;
use super::{Place, Told, PLACES, SOME_TIME};
use crate::alter::{codes_at_ends, with_code};
use crate::random::SplitMix64;
use crate::station::card::{ONE, TWO};
use crate::string::NavString;
use crate::words::kinds::{B, H, STRING_4};
use crate::words::signed::{signed_words, SignedWord};

/// The first twelve signed words are those of strings 1 to 4.
const SIGNED_WORDS_OF_A_RECORD: usize = 12;

/// Thirteen digits are written. A number of fourteen that ends in 5 lies halfway between two
/// texts.
const LEAST_OF_14_DIGITS: u128 = 10_u128.pow(13);

pub(super) fn add_all(input: &mut Input) {
    input.every_carrier();
    input.fresh_with_some_book();
    let mut place = PLACES[1];
    input.numbers_at_their_ends(&mut place);
    input.every_bit(&mut place);
    input.halfway_numbers(&mut place);
    input.any_numbers(&mut place);
    input.every_b_and_e(&mut place);
}

/// The words that say something in a text; delta tau says nothing.
fn words_of_a_record() -> impl Iterator<Item = SignedWord> {
    signed_words().take(SIGNED_WORDS_OF_A_RECORD)
}

/// A code that lies halfway, with either sign; none where the word has none. It is an odd number
/// times a power of two, and in decimals the odd number times the same power of five.
fn some_halfway(random: &mut SplitMix64, signed: &SignedWord) -> Option<u128> {
    let width = signed.word.width() as u32;
    let end = 1_u128 << (width - 1);
    let ways = (0..width - 1).filter_map(|zeros| {
        let power = 5_u128.pow(signed.binary_places.checked_sub(zeros)?);
        let least = LEAST_OF_14_DIGITS.div_ceil(power);
        let limit = (10 * LEAST_OF_14_DIGITS).div_ceil(power).min(end >> zeros);
        (least + 1 < limit).then_some((zeros, least, limit))
    });
    let ways: Vec<(u32, u128, u128)> = ways.collect();
    if ways.is_empty() {
        return None;
    }
    let (zeros, least, limit) = random.one_of(&ways);
    let drawn = least + random.below((limit - least) as usize) as u128;
    let odd = (drawn | 1).min(limit - 1);
    let sign = end * random.below(2) as u128;
    (odd % 2 == 1).then_some(sign | odd << zeros)
}

impl Input {
    /// The next frame on this channel with such codes in its signed words, and the text.
    fn text_with(
        &mut self,
        place: &mut Place,
        mut code: impl FnMut(&mut SplitMix64, &SignedWord) -> Option<u128>,
    ) {
        let mut strings = self.told(SOME_TIME);
        for signed in words_of_a_record() {
            let string = &mut strings[signed.kind.strings[0] - 1];
            if let Some(code) = code(&mut self.random, &signed) {
                *string = with_code(string, signed.word, code);
            }
        }
        self.text_of_strings(place, &strings);
    }

    fn text_of_strings(&mut self, place: &mut Place, strings: &[NavString]) {
        *place = place.next();
        self.hear(*place, strings);
        self.ask_text(*place);
    }

    /// Each in a slot of its own.
    fn every_carrier(&mut self) {
        let mut upload = self.upload();
        let carriers = (-7..=13).map(|carrier| H.code(carrier) as u128);
        for (pair, code) in upload.pairs.iter_mut().zip(carriers) {
            pair[1] = with_code(&pair[1], &H, code);
        }
        self.fresh_with_book(&upload);
        for card in [ONE, TWO] {
            self.ask_carriers(card, 1..=24);
        }
        let mut place = PLACES[0];
        for n in 1..=24 {
            let strings = self.told(Told { n, ..SOME_TIME });
            self.text_of_strings(&mut place, &strings);
        }
    }

    fn numbers_at_their_ends(&mut self, place: &mut Place) {
        for index in 0..8 {
            self.text_with(place, |_, signed| Some(codes_at_ends(signed.word)[index]));
        }
    }

    /// With either sign.
    fn every_bit(&mut self, place: &mut Place) {
        for bit in 0..26 {
            for sign in [0, 1] {
                self.text_with(place, |_, signed| {
                    let bits_of_number = signed.word.width() - 1;
                    Some(sign << bits_of_number | 1 << (bit % bits_of_number))
                });
            }
        }
    }

    /// Accelerations and gamma have none of these and are any.
    fn halfway_numbers(&mut self, place: &mut Place) {
        for _ in 0..60 {
            self.text_with(place, some_halfway);
        }
    }

    fn any_numbers(&mut self, place: &mut Place) {
        for _ in 0..60 {
            self.text_with(place, |_, _| None);
        }
    }

    fn every_b_and_e(&mut self, place: &mut Place) {
        let e = &STRING_4.words[2];
        for code in 0..32 {
            let mut strings = self.told(SOME_TIME);
            strings[1] = with_code(&strings[1], &B, code % 8);
            strings[3] = with_code(&strings[3], e, code);
            self.text_of_strings(place, &strings);
        }
    }
}
