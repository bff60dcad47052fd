//! The 22 signed words, numbered in the paper's order, with their units.

use super::kinds::{Kind, KINDS};
use super::word::Word;
use crate::scaled::Scaled;

/// A signed word and its unit.
#[derive(Clone, Copy, Debug, PartialEq, Eq)]
pub struct SignedWord {
    pub kind: &'static Kind,
    pub word: &'static Word,
    /// As the logger writes it.
    pub name: &'static str,
    /// 20 for a unit of 2^-20.
    pub binary_places: u32,
}

/// Words 1 to 22: the logger's name, and the scale factor of Table 4.5 or 4.9.
const UNITS: [(&str, u32); 22] = [
    ("vx", 20),
    ("ax", 30),
    ("x", 11),
    ("vy", 20),
    ("ay", 30),
    ("y", 11),
    ("gamma", 40),
    ("vz", 20),
    ("az", 30),
    ("z", 11),
    ("tau", 30),
    ("dtau", 30),
    ("tauc", 31),
    ("taugps", 30),
    ("taua", 18),
    ("lambda", 20),
    ("di", 20),
    ("omega", 15),
    ("dt", 9),
    ("rate", 14),
    ("b1", 10),
    ("b2", 16),
];

impl SignedWord {
    /// In its unit, from the values of all words of its kind.
    pub fn scaled(&self, values: &[i64]) -> Scaled {
        let mut words = self.kind.words.iter().zip(values);
        let own = words.find(|(word, _)| *word == self.word);
        let (_, &raw) = own.expect("a value for each word of the kind");
        Scaled {
            raw,
            binary_places: self.binary_places,
        }
    }
}

/// Words 1 to 22, kind by kind.
pub fn signed_words() -> impl Iterator<Item = SignedWord> {
    let words_of = |kind: &'static Kind| kind.signed_words().map(move |word| (kind, word));
    let with_units = KINDS.into_iter().flat_map(words_of).zip(UNITS);
    with_units.map(|((kind, word), (name, binary_places))| SignedWord {
        kind,
        word,
        name,
        binary_places,
    })
}

pub fn signed_words_of(kind: &Kind) -> impl Iterator<Item = SignedWord> + '_ {
    signed_words().filter(move |signed| signed.kind == kind)
}

/// None for word 0 and above 22.
pub fn signed_word(number: u8) -> Option<SignedWord> {
    let index = usize::from(number).checked_sub(1)?;
    signed_words().nth(index)
}
