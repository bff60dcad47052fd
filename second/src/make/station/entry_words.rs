//! The words of entries: books filled by whole superframes, each slot asked.

use super::super::satellite::{day_after, on_day, Upload, FRAMES_IN_A_SUPERFRAME};
use super::super::Input;
use super::refusals::WRONG_SLOTS;
use super::SOME_START;
use crate::alter::{codes_at_ends, codes_out_of_range, minus_zero, with_code};
use crate::known;
use crate::request::ENTRY_WORDS;
use crate::station::book::{Entry, SLOTS};
use crate::station::frame::STRINGS_IN_A_FRAME;
use crate::string::NavString;
use crate::words::kinds::{Kind, ALMANAC_SLOT, EVEN, ODD};
use crate::words::word::{Form, Word};

pub(in super::super) fn add_all(input: &mut Input) {
    input.words_of_empty_book();
    input.words_after_each_frame();
    input.one_word_at_its_ends();
    input.all_words_at_their_ends();
    input.words_of_received_frame();
    input.words_over_days();
    input.wrong_payloads_for_words();
}

/// The even half of an entry, then the odd half.
type Pair = [NavString; 2];

static KINDS_OF_A_PAIR: [&Kind; 2] = [&EVEN, &ODD];

/// Every code of a word up to this width; wider words at their ends.
const WIDTH_OF_ALL_CODES: usize = 5;

impl Input {
    fn ask_words(&mut self, slots: impl IntoIterator<Item = usize>) {
        for slot in slots {
            self.request(ENTRY_WORDS, &[slot as u8]);
        }
    }

    /// Each frame of a superframe, and after it the words of these slots.
    fn offer_superframe(&mut self, channel: u8, upload: &Upload, asked_after_each: &[usize]) {
        let satellite = self.satellite(u128::from(channel) + 1);
        for index in 0..FRAMES_IN_A_SUPERFRAME {
            let start = SOME_START + (STRINGS_IN_A_FRAME * index) as u32;
            self.offer_in_frame(channel, start, &satellite.frame(upload, index + 1));
            self.ask_words(asked_after_each.iter().copied());
        }
    }

    /// An almanac into an empty book, and all that it has become there.
    fn words_of_upload(&mut self, upload: &Upload) {
        self.fresh();
        self.offer_superframe(0, upload, &[]);
        self.ask_words(1..=SLOTS);
    }

    /// In no entry have two words the same value: an exchange of any two shows.
    fn upload_with_words_apart(&mut self) -> Upload {
        let mut upload = self.upload();
        for (slot, pair) in (1..).zip(&mut upload.pairs) {
            while !are_apart(pair) {
                let even = self.random.string_of(&EVEN);
                let odd = self.random.string_of(&ODD);
                *pair = [with_code(&even, &ALMANAC_SLOT, slot), odd];
            }
        }
        upload
    }

    fn words_of_empty_book(&mut self) {
        self.fresh();
        self.ask_words(WRONG_SLOTS);
        self.ask_words(1..=SLOTS);
    }

    /// The slots fill up, five with each frame.
    fn words_after_each_frame(&mut self) {
        self.fresh();
        let upload = self.upload_with_words_apart();
        let slots: Vec<usize> = (0..=SLOTS + 1).collect();
        self.offer_superframe(1, &upload, &slots);
    }

    /// One word of each entry takes a code, the others are apart.
    fn one_word_at_its_ends(&mut self) {
        for codes in codes_at_ends_of_words().chunks(SLOTS) {
            let mut upload = self.upload_with_words_apart();
            for (pair, &(half, word, code)) in upload.pairs.iter_mut().zip(codes) {
                pair[half] = with_code(&pair[half], word, code);
            }
            self.words_of_upload(&upload);
        }
    }

    /// All words of an entry but nA: at their least, at their greatest, with every
    /// bit set, zero with a minus sign.
    fn all_words_at_their_ends(&mut self) {
        let ends = [least, greatest, all_ones, zero_with_minus];
        let mut upload = self.upload();
        for (pair, end) in upload.pairs.iter_mut().zip(ends.into_iter().cycle()) {
            for (half, word) in words_but_slot() {
                pair[half] = with_code(&pair[half], word, end(word));
            }
        }
        self.words_of_upload(&upload);
    }

    fn words_of_received_frame(&mut self) {
        self.fresh();
        self.offer_in_frame(2, SOME_START, &known::received_frame());
        self.ask_words(1..=SLOTS);
    }

    /// A day, the day after it, the first again, and the later with other bits.
    fn words_over_days(&mut self) {
        self.fresh();
        let day = (6, 1461);
        let days = [day, day_after(day), day, day_after(day)];
        for (channel, day) in (3..).zip(days) {
            let mut upload = self.upload_with_words_apart();
            upload.string_5 = on_day(&upload.string_5, day);
            self.offer_superframe(channel, &upload, &[]);
            self.ask_words(1..=SLOTS);
        }
        self.reset(4);
        self.ask_words(1..=SLOTS);
        self.ask_all();
    }

    /// Every slot is filled by now.
    fn wrong_payloads_for_words(&mut self) {
        self.ask_words(WRONG_SLOTS);
        for payload in [&[][..], &[0, 0], &[1, 0], &[0, 1], &[24, 24], &[25, 0]] {
            self.request(ENTRY_WORDS, payload);
        }
        for length in [3, 16, 256, 257] {
            self.request(ENTRY_WORDS, &vec![1; length]);
        }
        self.ask_words([1, SLOTS]);
    }
}

/// No two of the twelve words have the same value.
fn are_apart([even, odd]: &Pair) -> bool {
    let mut words = Entry::of(1, even, odd).words();
    let count = words.len();
    words.sort();
    words.dedup();
    words.len() == count
}

/// The words that an entry is free to choose, each with its half. l is among them,
/// and is in no answer.
fn words_but_slot() -> impl Iterator<Item = (usize, &'static Word)> {
    let words_of = |(half, kind): (usize, &Kind)| kind.words.iter().map(move |word| (half, word));
    let halves = KINDS_OF_A_PAIR.into_iter().enumerate();
    halves
        .flat_map(words_of)
        .filter(|&(_, &word)| word != ALMANAC_SLOT)
}

fn codes_at_ends_of_words() -> Vec<(usize, &'static Word, u128)> {
    words_but_slot()
        .flat_map(|(half, word)| {
            let codes = codes_of(word).into_iter();
            codes.map(move |code| (half, word, code))
        })
        .collect()
}

/// All legal codes of a short word; of a longer one those at its ends.
fn codes_of(word: &Word) -> Vec<u128> {
    if word.width() > WIDTH_OF_ALL_CODES {
        return codes_at_ends(word).to_vec();
    }
    let out_of_range = codes_out_of_range(word);
    (0..1 << word.width())
        .filter(|code| !out_of_range.contains(code))
        .collect()
}

fn least(word: &Word) -> u128 {
    word.code(word.limits().0) as u128
}

fn greatest(word: &Word) -> u128 {
    word.code(word.limits().1) as u128
}

/// Legal in each of them: H is -1.
fn all_ones(word: &Word) -> u128 {
    (1 << word.width()) - 1
}

/// Words without a sign are 0.
fn zero_with_minus(word: &Word) -> u128 {
    match word.form {
        Form::Signed => minus_zero(word),
        _ => 0,
    }
}
