//! The signed words against Tables 4.5 and 4.9: their widths and scale factors, row by row.

use second::words::signed::{signed_word, signed_words};

/// A row as printed: word, count of bits, scale factor as the power of two below 1. Only the
/// words with note (2) are listed: they have a sign.
type Row = (&'static str, usize, u32);

/// Table 4.5 has one row for three axes.
const TABLE_4_5: &[Row] = &[
    ("gamma", 11, 40),
    ("tau", 22, 30),
    ("x", 27, 11),
    ("y", 27, 11),
    ("z", 27, 11),
    ("x velocity", 24, 20),
    ("y velocity", 24, 20),
    ("z velocity", 24, 20),
    ("x acceleration", 5, 30),
    ("y acceleration", 5, 30),
    ("z acceleration", 5, 30),
    ("delta tau", 5, 30),
];

/// tau c as GLONASS-M sends it: the other row has 28 bits of 2^-27.
const TABLE_4_9: &[Row] = &[
    ("tau c", 32, 31),
    ("tau GPS", 22, 30),
    ("lambda", 21, 20),
    ("delta i", 18, 20),
    ("delta T", 22, 9),
    ("rate of delta T", 7, 14),
    ("omega", 16, 15),
    ("B1", 11, 10),
    ("B2", 10, 16),
    ("tau A", 10, 18),
];

/// The numbers of the words in the requests, with what the logger calls them.
const NUMBERED: [(&str, &str); 22] = [
    ("x velocity", "vx"),
    ("x acceleration", "ax"),
    ("x", "x"),
    ("y velocity", "vy"),
    ("y acceleration", "ay"),
    ("y", "y"),
    ("gamma", "gamma"),
    ("z velocity", "vz"),
    ("z acceleration", "az"),
    ("z", "z"),
    ("tau", "tau"),
    ("delta tau", "dtau"),
    ("tau c", "tauc"),
    ("tau GPS", "taugps"),
    ("tau A", "taua"),
    ("lambda", "lambda"),
    ("delta i", "di"),
    ("omega", "omega"),
    ("delta T", "dt"),
    ("rate of delta T", "rate"),
    ("B1", "b1"),
    ("B2", "b2"),
];

#[test]
fn every_row_has_its_word() {
    for &(name, width, binary_places) in TABLE_4_5.iter().chain(TABLE_4_9) {
        let mut named = signed_words().filter(|signed| signed.word.name == name);
        let signed = named.next().unwrap_or_else(|| panic!("{name}"));
        assert_eq!(signed.word.width(), width, "{name}");
        assert_eq!(signed.binary_places, binary_places, "{name}");
        assert!(named.next().is_none(), "{name}");
    }
    assert_eq!(signed_words().count(), TABLE_4_5.len() + TABLE_4_9.len());
}

#[test]
fn words_1_to_22_stand_in_the_papers_order() {
    for (number, names) in (1..).zip(NUMBERED) {
        let signed = signed_word(number).unwrap();
        assert_eq!((signed.word.name, signed.name), names, "word {number}");
    }
}

#[test]
fn words_stand_in_the_strings_of_the_paper() {
    let kinds = [
        ("string 1", 1..=3),
        ("string 2", 4..=6),
        ("string 3", 7..=10),
        ("string 4", 11..=12),
        ("string 5", 13..=14),
        ("even 6..14", 15..=17),
        ("odd 7..15", 18..=20),
        ("frame 5, string 14", 21..=22),
    ];
    for (name, numbers) in kinds {
        for number in numbers {
            assert_eq!(signed_word(number).unwrap().kind.name, name);
        }
    }
}

#[test]
fn there_is_no_word_0_and_none_above_22() {
    for number in [0].into_iter().chain(23..=255) {
        assert_eq!(signed_word(number), None, "word {number}");
    }
}
