//! Skies for the test bench: their words, and requests for their symbols and for chips.

mod refusals;

use super::station::cards::Asker;
use super::Input;
use crate::random::SplitMix64;
use crate::ranging::CHIPS;
use crate::relative::to_relative;
use crate::request::{CHIP, ENTRY, ENTRY_WORDS, FIVE_OF, OFFER, SKY, SUMMARY};
use crate::sky::{
    Sky, L_IN_STRING_5, PERIOD_IN_STRING_5, SLOT_IN_AN_ENTRY, STRINGS, SYMBOLS, WORDS,
    WORDS_OF_AN_ENTRY,
};
use crate::station::book::SLOTS;
use crate::station::card::{ONE, TWO};
use crate::station::record::KINDS_OF_A_RECORD;
use crate::words::kinds::{EVEN, FRAME_5_STRING_14, L, ODD, STRING_5};
use crate::words::word::Word;

const RIGHT_ROOM: u16 = SYMBOLS as u16;

/// The words of the record, of string 5, and B1, B2 and KP come before them.
const FIRST_WORD_OF_ENTRIES: usize = WORDS - WORDS_OF_AN_ENTRY * SLOTS;

/// Where l of string 3 stands in a record.
const L_IN_A_RECORD: usize = 14;

/// So many sorts of values.
const TURNS: usize = 8;

/// One of every kind and what ends a superframe, and those of every kind with l.
const SOME_STRINGS: [u8; 9] = [1, 2, 3, 4, 5, 6, 7, 74, 75];
const STRINGS_WITH_L: [u8; 5] = [3, 5, 7, 15, 75];

/// A channel of each card, and the epoch of the first string there.
const HEARD: [(u8, u8, u32); 2] = [(ONE, 5, 1000), (TWO, 40, u32::MAX - STRINGS as u32 + 1)];

/// The same seed always gives the same bytes.
pub fn words(seed: u64) -> Vec<u8> {
    some_sky(&mut SplitMix64::new(seed)).to_bytes()
}

pub(super) fn add_all(input: &mut Input) {
    input.chips();
    input.payloads_that_are_no_chip();
    input.every_string_of_a_sky();
    input.skies_at_their_ends();
    input.skies_heard();
    refusals::add_all(input);
}

/// All 322 words, in the order in which a sky has them.
fn words_of_a_sky() -> Vec<&'static Word> {
    let record = KINDS_OF_A_RECORD.iter().flat_map(|kind| kind.words);
    let others = STRING_5.words.iter().chain(FRAME_5_STRING_14.words);
    let entries = (0..SLOTS).flat_map(|_| words_of_an_entry());
    record.chain(others).chain(entries).collect()
}

fn words_of_an_entry() -> impl Iterator<Item = &'static Word> {
    let words = EVEN.words.iter().chain(ODD.words);
    words.filter(|&&word| word != L)
}

/// Not refused. A word that is in every entry takes each of its ends in some of them.
fn some_sky(random: &mut SplitMix64) -> Sky {
    let first = random.below(TURNS);
    let words = words_of_a_sky().into_iter().enumerate();
    let words: Vec<i64> = words
        .map(|(index, word)| {
            let turn = match index < FIRST_WORD_OF_ENTRIES {
                true => random.below(TURNS),
                // By thirteen more in the next entry: in eight of them each of the eight.
                false => first + index + index / WORDS_OF_AN_ENTRY,
            };
            value_at(random, turn, word)
        })
        .collect();
    let mut sky = put_right(&words);
    // No l stands for another one.
    sky.record[L_IN_A_RECORD] = 1 - sky.string_5[L_IN_STRING_5];
    sky
}

/// The ends of a word and what is next to them, 0 where it is legal, and others.
fn value_at(random: &mut SplitMix64, turn: usize, word: &Word) -> i64 {
    let (least, greatest) = word.limits();
    match turn % TURNS {
        0 => least,
        1 => greatest,
        2 => least + 1,
        3 => greatest - 1,
        4 => 0.clamp(least, greatest),
        _ => random.legal_value(word),
    }
}

/// The sky of these words, but with slots in order and N4 at least 1.
fn put_right(words: &[i64]) -> Sky {
    let mut sky = Sky::from_words(words).expect("all words of a sky");
    let period = &mut sky.string_5[PERIOD_IN_STRING_5];
    *period = (*period).max(1);
    for (slot, entry) in (1..).zip(&mut sky.entries) {
        entry[SLOT_IN_AN_ENTRY] = slot;
    }
    sky
}

/// The same with either l the other way.
fn with_other_l(sky: &Sky) -> Sky {
    let mut other = sky.clone();
    for l in [
        &mut other.record[L_IN_A_RECORD],
        &mut other.string_5[L_IN_STRING_5],
    ] {
        *l = 1 - *l;
    }
    other
}

impl Input {
    fn sky_in(&mut self, room: u16, place: u8, sky: &Sky) {
        let [high, low] = room.to_be_bytes();
        let payload = [&[high, low, place], &sky.to_bytes()[..]].concat();
        self.request(SKY, &payload);
    }

    fn strings_of_sky(&mut self, sky: &Sky, places: impl IntoIterator<Item = u8>) {
        for place in places {
            self.sky_in(RIGHT_ROOM, place, sky);
        }
    }

    fn some_sky(&mut self) -> Sky {
        some_sky(&mut self.random)
    }

    fn chip(&mut self, number: u16) {
        self.request(CHIP, &number.to_be_bytes());
    }

    /// Two periods and the beginning of a third, the last of all, and some between.
    fn chips(&mut self) {
        for number in 0..2 * CHIPS as u16 + 20 {
            self.chip(number);
        }
        for number in [
            0x0100,
            0x1000,
            0x7FFF,
            0x8000,
            0xFF00,
            65_407,
            65_408,
            u16::MAX,
        ] {
            self.chip(number);
        }
        for _ in 0..40 {
            let number = self.random.number() as u16;
            self.chip(number);
        }
    }

    fn payloads_that_are_no_chip(&mut self) {
        for payload in [&[][..], &[0], &[1], &[0, 0, 0], &[0, 1, 0], &[0; 4]] {
            self.request(CHIP, payload);
        }
        for length in [16, 256, 511] {
            self.request(CHIP, &vec![0; length]);
        }
    }

    fn every_string_of_a_sky(&mut self) {
        let sky = self.some_sky();
        self.strings_of_sky(&sky, 1..=STRINGS as u8);
        self.strings_of_sky(&with_other_l(&sky), STRINGS_WITH_L);
    }

    /// Every word at its least, and every word at its greatest.
    fn skies_at_their_ends(&mut self) {
        let limits = words_of_a_sky().into_iter().map(Word::limits);
        let (least, greatest): (Vec<i64>, Vec<i64>) = limits.unzip();
        for words in [least, greatest] {
            self.strings_of_sky(&put_right(&words), SOME_STRINGS);
        }
    }

    /// The strings of a sky in relative form at successive epochs, and what a fresh station has
    /// made of them.
    fn skies_heard(&mut self) {
        for (card, channel, first) in HEARD {
            let sky = self.some_sky();
            self.fresh();
            let asker = Asker::Card(card);
            let strings = sky.strings().expect("a sky that is not refused");
            for (epoch, string) in (first..=u32::MAX).zip(&strings) {
                let symbols = to_relative(string).expect("bit 85 is 0").to_bytes();
                let offer = [&[channel], &epoch.to_be_bytes()[..], &symbols].concat();
                self.ask(asker, OFFER, &offer);
            }
            self.ask_row(asker, channel);
            self.request(FIVE_OF, &[card, channel]);
            for slot in 1..=SLOTS as u8 {
                self.ask(asker, ENTRY, &[slot]);
                self.ask(asker, ENTRY_WORDS, &[slot]);
            }
            self.ask(asker, SUMMARY, &[]);
        }
    }
}
