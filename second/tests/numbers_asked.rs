//! The made input asks for every word and for records of four strings with every trouble, alone
//! and mixed. The seed is that of the stored input.

use std::collections::HashSet;

use second::hamming::check;
use second::refusal::Refusal;
use second::request::{split_strings, Piece, FOUR_STRINGS, WORD_AS_FLOAT};
use second::scaled::Scaled;
use second::string::{NavString, BYTES, PADDING};
use second::words::kinds::{Kind, EVEN, KINDS};
use second::words::signed::{signed_word, signed_words};
use second::{make, trial};

/// The reader's refusals in their order; 31 to 33 exclude one another, and so do 5 and 11.
const NUMBERS: [u8; 8] = [2, 31, 32, 33, 4, 5, 11, 10];

/// The payloads of an op, with their lines.
fn asked(op: u8) -> Vec<(Vec<u8>, String)> {
    let input = make::trial_input(20260);
    let of_this_op = |(piece, line): (Piece, String)| match piece {
        Piece::Whole(request) if request.op == op => Some((request.payload.to_vec(), line)),
        _ => None,
    };
    trial::answers(&input).filter_map(of_this_op).collect()
}

/// Everything that is wrong with a string, whatever is looked for first: m, bit 85 and the
/// words are those that are sent. A flip that would be repaired is nothing wrong.
fn troubles(kind: &Kind, bytes: &[u8]) -> HashSet<u8> {
    let mut found = HashSet::new();
    let Some(&first) = bytes.first_chunk::<BYTES>() else {
        return HashSet::from([2]);
    };
    let mut bare = first;
    bare[BYTES - 1] &= !PADDING;
    if bytes.len() != BYTES || bare != first {
        found.insert(2);
    }
    let mut string = NavString::from_bytes(&bare).unwrap();
    match check(&string) {
        Ok((_, repaired)) => string = repaired,
        Err(refusal @ Refusal::Damaged(_)) => _ = found.insert(refusal.number()),
        Err(_) => (),
    }
    if string.bit(85) {
        found.insert(4);
    }
    match string.m() {
        0 => _ = found.insert(5),
        m if !kind.strings.contains(&m) => _ = found.insert(11),
        _ => (),
    }
    if kind.words.iter().any(|word| word.read(&string).is_err()) {
        found.insert(10);
    }
    found
}

/// The trouble that the order of tests names.
fn first_of(troubles: &HashSet<u8>) -> Option<u8> {
    NUMBERS.into_iter().find(|number| troubles.contains(number))
}

fn number_in(line: &str) -> Option<u8> {
    let rest = line.strip_prefix("no ")?;
    rest.split(' ').next()?.parse().ok()
}

fn can_be_both(first: u8, second: u8) -> bool {
    let is_damage = |number| (31..=33).contains(&number);
    first != second
        && !(is_damage(first) && is_damage(second))
        && !matches!((first, second), (5, 11) | (11, 5))
}

fn has_range(kind: &Kind) -> bool {
    kind.words_with_range().next().is_some()
}

/// The numbers that a string of this kind can be refused by.
fn numbers_of(kind: &Kind) -> Vec<u8> {
    let mut numbers = NUMBERS.to_vec();
    numbers.retain(|&number| number != 10 || has_range(kind));
    numbers
}

#[test]
fn every_word_is_asked_at_its_ends_and_around_zero() {
    let lines: HashSet<(u8, String)> = asked(WORD_AS_FLOAT)
        .into_iter()
        .filter_map(|(payload, line)| Some((*payload.first()?, line)))
        .collect();
    for (number, signed) in (1..).zip(signed_words()) {
        let (least, greatest) = signed.word.limits();
        for raw in [0, 1, -1, least, least + 1, greatest - 1, greatest] {
            let scaled = Scaled {
                raw,
                binary_places: signed.binary_places,
            };
            let line = format!("ok {:016x}", scaled.float_bits());
            assert!(lines.contains(&(number, line)), "word {number}: {raw}");
        }
    }
}

/// Both in strings that are read.
#[test]
fn every_word_is_asked_with_minus_zero_and_after_a_repair() {
    let asked = asked(WORD_AS_FLOAT);
    for (number, signed) in (1..).zip(signed_words()) {
        let sign = 1 << (signed.word.width() - 1);
        let (mut minus_zero, mut repaired) = (false, false);
        for (payload, line) in &asked {
            let Some((&asked_number, bytes)) = payload.split_first() else {
                continue;
            };
            if asked_number == number && line.starts_with("ok ") {
                let string = NavString::from_bytes(bytes).unwrap();
                minus_zero |= string.number(signed.word.bits) == sign;
                repaired |= check(&string).unwrap().1 != string;
            }
        }
        assert!(minus_zero && repaired, "word {number}");
    }
}

/// The line is always that of the first trouble.
#[test]
fn every_kind_has_every_refusal_and_every_two_in_their_order() {
    let asked = asked(WORD_AS_FLOAT);
    for kind in KINDS {
        let mut found = HashSet::new();
        for (payload, line) in &asked {
            let [number, bytes @ ..] = &payload[..] else {
                continue;
            };
            if signed_word(*number).is_some_and(|signed| signed.kind == kind) {
                let troubles = troubles(kind, bytes);
                assert_eq!(number_in(line), first_of(&troubles), "{line}");
                for &one in &troubles {
                    found.extend(troubles.iter().map(|&other| (one, other)));
                }
            }
        }
        for first in numbers_of(kind) {
            assert!(found.contains(&(first, first)), "{}: {first}", kind.name);
            for second in numbers_of(kind) {
                let both = found.contains(&(first, second));
                let wanted = can_be_both(first, second);
                assert!(both || !wanted, "{}: {first}, {second}", kind.name);
            }
        }
    }
}

/// PLACE stands before RANGE and after all else.
#[test]
fn words_that_there_are_not_are_asked_with_every_trouble() {
    let asked = asked(WORD_AS_FLOAT);
    for number in [0, 23, 255] {
        let mut found = HashSet::new();
        for (payload, line) in &asked {
            match &payload[..] {
                [other, bytes @ ..] if *other == number => {
                    let mut troubles = troubles(&EVEN, bytes);
                    if !troubles.contains(&5) {
                        troubles.insert(11);
                    }
                    assert_eq!(number_in(line), first_of(&troubles), "{line}");
                    let with_line = |trouble| (number_in(line), trouble);
                    found.extend(troubles.into_iter().map(with_line));
                }
                _ => (),
            }
        }
        for refusal in [2, 31, 32, 33, 4, 5, 11] {
            assert!(found.contains(&(Some(refusal), refusal)), "{refusal}");
        }
        assert!(found.contains(&(Some(11), 10)), "word {number}");
    }
}

#[test]
fn every_word_is_asked_under_every_m() {
    let asked = asked(WORD_AS_FLOAT);
    for number in 1..=22 {
        let mut numbers = HashSet::new();
        for (payload, _) in asked
            .iter()
            .filter(|(payload, _)| payload.first() == Some(&number))
        {
            if let Ok(string) = NavString::from_bytes(&payload[1..]) {
                numbers.insert(string.m());
            }
        }
        assert_eq!(numbers.len(), 16, "word {number}");
    }
}

/// The troubles of the four strings, each by its kind.
fn troubles_of_four(strings: &[&[u8]; 4]) -> [HashSet<u8>; 4] {
    [0, 1, 2, 3].map(|place| troubles(KINDS[place], strings[place]))
}

fn expected_of_four(strings: &[&[u8]; 4]) -> Option<u8> {
    if strings.iter().any(|string| string.len() != BYTES) {
        return Some(2);
    }
    troubles_of_four(strings).iter().find_map(first_of)
}

/// All payloads of four strings, and their numbers of refusals.
fn fours() -> Vec<(Vec<u8>, Option<u8>)> {
    let mut fours = asked(FOUR_STRINGS);
    fours.retain(|(payload, line)| {
        let is_four = split_strings(payload).is_some();
        assert_eq!(line == "bad 16", !is_four);
        is_four
    });
    fours
        .into_iter()
        .map(|(payload, line)| (payload, number_in(&line)))
        .collect()
}

#[test]
fn the_first_string_with_a_trouble_refuses_but_for_lengths() {
    for (payload, number) in fours() {
        let strings = split_strings(&payload).unwrap();
        assert_eq!(number, expected_of_four(&strings), "{payload:?}");
    }
}

/// A trouble in one string alone, and one in each of two strings.
#[test]
fn records_have_every_trouble_in_each_string_and_in_every_two() {
    let (mut alone, mut mixed) = (HashSet::new(), HashSet::new());
    for (payload, _) in fours() {
        let found = troubles_of_four(&split_strings(&payload).unwrap());
        let wrong: Vec<usize> = (0..4).filter(|&place| !found[place].is_empty()).collect();
        match wrong[..] {
            [place] => alone.extend(found[place].iter().map(|&number| (place, number))),
            [earlier, later] => {
                for &first in &found[earlier] {
                    let seconds = found[later].iter();
                    mixed.extend(seconds.map(|&second| (earlier, first, later, second)));
                }
            }
            _ => (),
        }
    }
    for (later, kind) in KINDS[..4].iter().enumerate() {
        for second in numbers_of(kind) {
            assert!(alone.contains(&(later, second)), "{later}: {second}");
            for (earlier, kind) in KINDS[..later].iter().enumerate() {
                for first in numbers_of(kind) {
                    let both = (earlier, first, later, second);
                    assert!(mixed.contains(&both), "{both:?}");
                }
            }
        }
    }
}

/// A wrong length in one string, and in another one a trouble that is not in its shape.
#[test]
fn records_have_wrong_lengths_beside_every_other_trouble() {
    let mut found = HashSet::new();
    for (payload, number) in fours() {
        let strings = split_strings(&payload).unwrap();
        let troubles = troubles_of_four(&strings);
        for place in (0..4).filter(|&place| strings[place].len() != BYTES) {
            assert_eq!(number, Some(2));
            for other in (0..4).filter(|&other| strings[other].len() == BYTES) {
                let others = troubles[other].iter();
                found.extend(others.map(|&trouble| (place, other, trouble)));
            }
        }
    }
    for place in 0..4 {
        for other in (0..4).filter(|&other| other != place) {
            for trouble in numbers_of(KINDS[other]) {
                let wanted = (place, other, trouble);
                assert!(found.contains(&wanted), "{wanted:?}");
            }
        }
    }
}

/// Of the twelve numbers of records that are granted.
#[test]
fn records_have_the_ends_and_minus_zeros_of_their_words() {
    let (mut values, mut minus_zeros) = (HashSet::new(), HashSet::new());
    for (payload, _) in fours().into_iter().filter(|(_, number)| number.is_none()) {
        let strings = split_strings(&payload).unwrap();
        for (number, signed) in (1..=12).zip(signed_words()) {
            let place = signed.kind.strings[0] - 1;
            let string = NavString::from_bytes(strings[place]).unwrap();
            values.insert((number, signed.word.value_in(&string)));
            if string.number(signed.word.bits) == 1 << (signed.word.width() - 1) {
                minus_zeros.insert(number);
            }
        }
    }
    for (number, signed) in (1..=12).zip(signed_words()) {
        let (least, greatest) = signed.word.limits();
        for value in [least, -1, 0, 1, greatest] {
            assert!(values.contains(&(number, value)), "word {number}: {value}");
        }
        assert!(minus_zeros.contains(&number), "word {number}");
    }
}

#[test]
fn payloads_that_are_bad_are_among_them() {
    let lines = asked(WORD_AS_FLOAT);
    assert!(lines.contains(&(vec![], String::from("bad 15"))));
    let payloads = asked(FOUR_STRINGS);
    let bad = payloads.iter().filter(|(_, line)| line == "bad 16");
    let lengths: HashSet<usize> = bad.map(|(payload, _)| payload.len()).collect();
    assert!((0..=49).all(|length| lengths.contains(&length)));
}

#[test]
fn no_more_than_3_000_requests_ask_for_numbers() {
    let count = asked(WORD_AS_FLOAT).len() + asked(FOUR_STRINGS).len();
    assert!((2000..=3000).contains(&count), "{count}");
}
