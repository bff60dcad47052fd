//! The eight kinds of strings and their words, from Tables 4.6 and 4.11.

use super::word::{Form, Word};
use crate::string::DATA;

/// What a string carries.
#[derive(Debug, PartialEq, Eq)]
pub struct Kind {
    pub name: &'static str,
    /// The string numbers of this kind.
    pub strings: &'static [usize],
    /// In the paper's order, from the highest bit number down.
    pub words: &'static [Word],
}

impl Kind {
    /// tk, tb, NA, nA and H: the words with codes that RANGE refuses.
    pub fn words_with_range(&self) -> impl Iterator<Item = &'static Word> {
        self.words.iter().filter(|word| word.has_range())
    }

    pub fn signed_words(&self) -> impl Iterator<Item = &'static Word> {
        self.words.iter().filter(|word| word.form == Form::Signed)
    }

    /// The string numbers of all other kinds.
    pub fn strings_of_others(&self) -> impl Iterator<Item = usize> + '_ {
        (1..=15).filter(|m| !self.strings.contains(m))
    }

    /// "Reserved bits": those of 80 to 9 that are in no word.
    pub fn reserved_bits(&self) -> impl Iterator<Item = usize> + '_ {
        let in_a_word = |bit: &usize| self.words.iter().any(|word| word.holds(*bit));
        (DATA.1..=DATA.0).rev().filter(move |bit| !in_a_word(bit))
    }
}

const fn plain(name: &'static str, top: usize, low: usize) -> Word {
    word(name, top, low, Form::Plain)
}

const fn signed(name: &'static str, top: usize, low: usize) -> Word {
    word(name, top, low, Form::Signed)
}

const fn within(name: &'static str, top: usize, low: usize, least: i64, greatest: i64) -> Word {
    word(name, top, low, Form::Within { least, greatest })
}

const fn word(name: &'static str, top: usize, low: usize, form: Form) -> Word {
    let bits = (top, low);
    Word { name, bits, form }
}

/// Strings 1, 2 and 3 carry one axis each, in the same bits.
const fn velocity(name: &'static str) -> Word {
    signed(name, 64, 41)
}

const fn acceleration(name: &'static str) -> Word {
    signed(name, 40, 36)
}

const fn coordinate(name: &'static str) -> Word {
    signed(name, 35, 9)
}

/// The sender's health flag in strings 5, 7, 9, 11, 13 and 15.
pub const L: Word = plain("l", 9, 9);

/// Words that the ranges, the frame rules, the book, the health rule and the navigation record
/// name.
pub const TK: Word = word("tk", 76, 65, Form::TimeOfDay);
pub const TB: Word = within("tb", 76, 70, 1, 95);
pub const H: Word = word("H", 14, 10, Form::Carrier);
pub const B: Word = plain("B", 80, 78);
pub const L_OF_STRING_3: Word = plain("l", 65, 65);
pub const DAY: Word = plain("NT", 26, 16);
pub const SATELLITE: Word = plain("n", 15, 11);
pub const SATELLITE_TYPE: Word = plain("M", 10, 9);
pub const ALMANAC_DAY: Word = within("NA", 80, 70, 1, 1461);
pub const FOUR_YEAR_PERIOD: Word = plain("N4", 36, 32);
pub const ALMANAC_C: Word = plain("C", 80, 80);
pub const ALMANAC_SLOT: Word = within("nA", 77, 73, 1, 24);

pub static STRING_1: Kind = Kind {
    name: "string 1",
    strings: &[1],
    words: &[
        plain("P1", 78, 77),
        TK,
        velocity("x velocity"),
        acceleration("x acceleration"),
        coordinate("x"),
    ],
};

pub static STRING_2: Kind = Kind {
    name: "string 2",
    strings: &[2],
    words: &[
        B,
        plain("P2", 77, 77),
        TB,
        velocity("y velocity"),
        acceleration("y acceleration"),
        coordinate("y"),
    ],
};

pub static STRING_3: Kind = Kind {
    name: "string 3",
    strings: &[3],
    words: &[
        plain("P3", 80, 80),
        signed("gamma", 79, 69),
        plain("P", 67, 66),
        L_OF_STRING_3,
        velocity("z velocity"),
        acceleration("z acceleration"),
        coordinate("z"),
    ],
};

pub static STRING_4: Kind = Kind {
    name: "string 4",
    strings: &[4],
    words: &[
        signed("tau", 80, 59),
        signed("delta tau", 58, 54),
        plain("E", 53, 49),
        plain("P4", 34, 34),
        plain("FT", 33, 30),
        DAY,
        SATELLITE,
        SATELLITE_TYPE,
    ],
};

pub static STRING_5: Kind = Kind {
    name: "string 5",
    strings: &[5],
    words: &[
        ALMANAC_DAY,
        signed("tau c", 69, 38),
        FOUR_YEAR_PERIOD,
        signed("tau GPS", 31, 10),
        L,
    ],
};

pub static EVEN: Kind = Kind {
    name: "even 6..14",
    strings: &[6, 8, 10, 12, 14],
    words: &[
        ALMANAC_C,
        plain("MA", 79, 78),
        ALMANAC_SLOT,
        signed("tau A", 72, 63),
        signed("lambda", 62, 42),
        signed("delta i", 41, 24),
        plain("epsilon", 23, 9),
    ],
};

pub static ODD: Kind = Kind {
    name: "odd 7..15",
    strings: &[7, 9, 11, 13, 15],
    words: &[
        signed("omega", 80, 65),
        plain("t lambda", 64, 44),
        signed("delta T", 43, 22),
        signed("rate of delta T", 21, 15),
        H,
        L,
    ],
};

pub static FRAME_5_STRING_14: Kind = Kind {
    name: "frame 5, string 14",
    strings: &[14],
    words: &[
        signed("B1", 80, 70),
        signed("B2", 69, 60),
        plain("KP", 59, 58),
    ],
};

/// In the paper's order.
pub static KINDS: [&Kind; 8] = [
    &STRING_1,
    &STRING_2,
    &STRING_3,
    &STRING_4,
    &STRING_5,
    &EVEN,
    &ODD,
    &FRAME_5_STRING_14,
];

/// The kind of string m, 1 to 15; string 14 is taken for an even one.
pub fn kind_of(m: usize) -> &'static Kind {
    kinds_of(m).next().expect("every m has its kind")
}

/// The kinds that string m can be of: one, but for string 14 two, even first.
pub fn kinds_of(m: usize) -> impl Iterator<Item = &'static Kind> {
    let has_m = move |kind: &&Kind| kind.strings.contains(&m);
    KINDS.into_iter().filter(has_m)
}
