//! The kinds' words against Tables 4.6 and 4.11, row by row.

use second::words::kinds::{Kind, FRAME_5_STRING_14, KINDS};
use second::words::word::{Form, Word};

const EVEN_STRINGS: &[usize] = &[6, 8, 10, 12, 14];
const ODD_STRINGS: &[usize] = &[7, 9, 11, 13, 15];
/// B1, B2 and KP stand in string 74: string 14 of frame 5.
const STRING_74: &[usize] = &[74];

/// A row as printed: word, count of bits, string numbers, lowest and top bit.
type Row = (&'static str, usize, &'static [usize], usize, usize);

const TABLE_4_6: &[Row] = &[
    ("tk", 12, &[1], 65, 76),
    ("tb", 7, &[2], 70, 76),
    ("M", 2, &[4], 9, 10),
    ("gamma", 11, &[3], 69, 79),
    ("tau", 22, &[4], 59, 80),
    ("x", 27, &[1], 9, 35),
    ("y", 27, &[2], 9, 35),
    ("z", 27, &[3], 9, 35),
    ("x velocity", 24, &[1], 41, 64),
    ("y velocity", 24, &[2], 41, 64),
    ("z velocity", 24, &[3], 41, 64),
    ("x acceleration", 5, &[1], 36, 40),
    ("y acceleration", 5, &[2], 36, 40),
    ("z acceleration", 5, &[3], 36, 40),
    ("P", 2, &[3], 66, 67),
    ("NT", 11, &[4], 16, 26),
    ("n", 5, &[4], 11, 15),
    ("FT", 4, &[4], 30, 33),
    ("E", 5, &[4], 49, 53),
    ("B", 3, &[2], 78, 80),
    ("P1", 2, &[1], 77, 78),
    ("P2", 1, &[2], 77, 77),
    ("P3", 1, &[3], 80, 80),
    ("P4", 1, &[4], 34, 34),
    ("delta tau", 5, &[4], 54, 58),
    ("l", 1, &[3], 65, 65),
    ("l", 1, &[5, 7, 9, 11, 13, 15], 9, 9),
];

const TABLE_4_11: &[Row] = &[
    ("tau c", 32, &[5], 38, 69),
    ("N4", 5, &[5], 32, 36),
    ("tau GPS", 22, &[5], 10, 31),
    ("NA", 11, &[5], 70, 80),
    ("nA", 5, EVEN_STRINGS, 73, 77),
    ("H", 5, ODD_STRINGS, 10, 14),
    ("lambda", 21, EVEN_STRINGS, 42, 62),
    ("t lambda", 21, ODD_STRINGS, 44, 64),
    ("delta i", 18, EVEN_STRINGS, 24, 41),
    ("delta T", 22, ODD_STRINGS, 22, 43),
    ("rate of delta T", 7, ODD_STRINGS, 15, 21),
    ("epsilon", 15, EVEN_STRINGS, 9, 23),
    ("omega", 16, ODD_STRINGS, 65, 80),
    ("MA", 2, EVEN_STRINGS, 78, 79),
    ("B1", 11, STRING_74, 70, 80),
    ("B2", 10, STRING_74, 60, 69),
    ("KP", 2, STRING_74, 58, 59),
    ("tau A", 10, EVEN_STRINGS, 63, 72),
    ("C", 1, EVEN_STRINGS, 80, 80),
];

/// The words with note (2) in Tables 4.5 and 4.9: "the MSB is the sign bit". The
/// English Table 4.9 leaves it out at tau A.
const SIGNED: &[&str] = &[
    "gamma",
    "tau",
    "x",
    "y",
    "z",
    "x velocity",
    "y velocity",
    "z velocity",
    "x acceleration",
    "y acceleration",
    "z acceleration",
    "delta tau",
    "tau c",
    "tau GPS",
    "lambda",
    "delta i",
    "delta T",
    "rate of delta T",
    "omega",
    "B1",
    "B2",
    "tau A",
];

fn rows() -> impl Iterator<Item = &'static Row> {
    TABLE_4_6.iter().chain(TABLE_4_11)
}

fn words() -> impl Iterator<Item = (&'static Kind, &'static Word)> {
    KINDS
        .into_iter()
        .flat_map(|kind| kind.words.iter().map(move |word| (kind, word)))
}

fn strings_in_the_tables(kind: &'static Kind) -> &'static [usize] {
    match kind == &FRAME_5_STRING_14 {
        true => STRING_74,
        false => kind.strings,
    }
}

/// A row and a word are of the same strings and bits.
fn stands_at(row: &Row, kind: &'static Kind, word: &Word) -> bool {
    let (_, _, strings, low, top) = *row;
    let in_row = |m| strings.contains(m);
    word.bits == (top, low) && strings_in_the_tables(kind).iter().all(in_row)
}

#[test]
fn every_word_has_its_row() {
    for (kind, word) in words() {
        let row = rows().find(|row| stands_at(row, kind, word));
        let (name, count, ..) = row.unwrap_or_else(|| panic!("{} {}", kind.name, word.name));
        assert_eq!((word.name, word.width()), (*name, *count));
    }
}

#[test]
fn every_string_of_every_row_has_its_word() {
    for row in rows() {
        for m in row.2 {
            let here = |(kind, word): &(&'static Kind, &Word)| {
                strings_in_the_tables(kind).contains(m) && stands_at(row, kind, word)
            };
            assert_eq!(words().filter(here).count(), 1, "{} in string {m}", row.0);
        }
    }
}

#[test]
fn words_stand_from_the_highest_bit_down_and_do_not_meet() {
    for kind in KINDS {
        let mut below = 81;
        for word in kind.words {
            assert!(word.bits.0 < below, "{} {}", kind.name, word.name);
            assert!(word.bits.1 <= word.bits.0);
            below = word.bits.1;
        }
        assert!(below >= 9, "{}", kind.name);
    }
}

#[test]
fn signed_words_are_those_with_the_note() {
    for (kind, word) in words() {
        let signed = word.form == Form::Signed;
        assert_eq!(
            signed,
            SIGNED.contains(&word.name),
            "{} {}",
            kind.name,
            word.name
        );
    }
}

#[test]
fn strings_1_to_4_have_26_words() {
    let count: usize = KINDS[..4].iter().map(|kind| kind.words.len()).sum();
    assert_eq!(count, 26);
}
