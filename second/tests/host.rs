//! Numbers for a host: one word of a string, and the record of four strings.

use second::alter::{codes_at_ends, minus_zero, with_bit_inverted, with_code, with_m};
use second::host::{record, word, Numbers};
use second::known::{received_frame, FLIPS_OF_CHECK_BITS};
use second::random::SplitMix64;
use second::refusal::Refusal;
use second::scaled::Scaled;
use second::string::{NavString, IDLE_BIT};
use second::words::kinds::{Kind, EVEN, H, KINDS, ODD, STRING_1, STRING_2, TK};
use second::words::read;
use second::words::signed::{signed_word, signed_words};

fn word_of(number: u8, string: &NavString) -> Result<Scaled, Refusal> {
    word(number, &string.to_bytes())
}

fn record_of(strings: &[NavString; 4]) -> Result<Numbers, Refusal> {
    let bytes = strings.map(|string| string.to_bytes());
    record([&bytes[0], &bytes[1], &bytes[2], &bytes[3]])
}

fn range<T>() -> Result<T, Refusal> {
    Err(Refusal::Range { place: 76 })
}

#[test]
fn words_of_the_received_frame() {
    let frame = received_frame();
    for (number, m, raw) in [
        (1, 1, -1_524_643),
        (3, 1, 29_953_275),
        (6, 2, -14_498_293),
        (7, 3, 0),
        (9, 3, -2),
        (11, 4, -29_136),
        (12, 4, 8),
        (15, 6, -8),
        (16, 6, 183_842),
        (18, 7, 3_910),
        (19, 7, -1_359_852),
        (20, 7, -18),
    ] {
        let binary_places = signed_word(number).unwrap().binary_places;
        let expected = Scaled { raw, binary_places };
        assert_eq!(word_of(number, &frame[m - 1]), Ok(expected), "{number}");
    }
}

/// The satellite sends tau c as minus zero.
#[test]
fn minus_zero_is_plus_zero() {
    let tau_c = word_of(13, &received_frame()[4]).unwrap();
    assert_eq!(tau_c.float_bits(), 0);
    let mut random = SplitMix64::new(21);
    for (number, signed) in (1..).zip(signed_words()) {
        let string = random.string_of(signed.kind);
        let string = with_code(&string, signed.word, minus_zero(signed.word));
        assert_eq!(word_of(number, &string).unwrap().float_bits(), 0);
    }
}

/// Also where the flip is in the word itself.
#[test]
fn a_word_is_read_with_the_repair_made() {
    let mut random = SplitMix64::new(22);
    for (number, signed) in (1..).zip(signed_words()) {
        let string = random.string_of(signed.kind);
        let expected = word_of(number, &string);
        assert!(expected.is_ok());
        for bit in (1..=85).filter(|&bit| bit != 8) {
            assert_eq!(word_of(number, &string.flipped(&[bit])), expected);
        }
    }
}

#[test]
fn every_code_at_the_ends_is_read_as_the_reader_reads_it() {
    let mut random = SplitMix64::new(23);
    for (number, signed) in (1..).zip(signed_words()) {
        for code in codes_at_ends(signed.word) {
            let string = with_code(&random.string_of(signed.kind), signed.word, code);
            let scaled = word_of(number, &string).unwrap();
            assert_eq!(scaled.raw, signed.word.value_in(&string));
            assert_eq!(scaled.binary_places, signed.binary_places);
        }
    }
}

/// Good strings and strings with any flips, m and words: the refusals of the reader.
#[test]
fn a_word_is_refused_as_the_reader_refuses_its_kind() {
    let mut random = SplitMix64::new(24);
    for (number, signed) in (1..).zip(signed_words()) {
        for round in 0..200 {
            let string = random.string_of(signed.kind);
            let string = match round % 4 {
                0 => random.string(),
                1 => with_m(&random.encoded_string(false), string.m()),
                2 => with_m(&string, random.below(16)),
                _ => string.flipped(&random.bit_numbers(1 + round % 3)),
            };
            let expected = read(signed.kind, &string.to_bytes()).map(|_| ());
            assert_eq!(word_of(number, &string).map(|_| ()), expected);
        }
    }
}

#[test]
fn another_word_out_of_range_refuses_the_string() {
    let mut random = SplitMix64::new(25);
    let hour_24 = with_code(&random.string_of(&STRING_1), &TK, 24 * 128);
    for number in 1..=3 {
        assert_eq!(word_of(number, &hour_24), range());
    }
    let no_carrier = with_code(&random.string_of(&ODD), &H, 14);
    for number in 18..=20 {
        let expected = Err(Refusal::Range { place: 14 });
        assert_eq!(word_of(number, &no_carrier), expected);
    }
}

/// What would be nA of an even string does not count for B1 and B2.
#[test]
fn string_14_of_frame_5_has_no_range() {
    let string = with_m(&NavString::zero(), 14);
    assert_eq!(word_of(15, &string), Err(Refusal::Range { place: 77 }));
    assert!(word_of(21, &string).is_ok());
    assert!(word_of(22, &string).is_ok());
}

/// A string with all wrongs of an even one, then each time one less.
#[test]
fn words_that_there_are_not_are_place_in_its_turn() {
    let mut random = SplitMix64::new(26);
    let no_slot = with_m(&NavString::zero(), 6);
    let no_number = with_m(&no_slot, 0);
    let idle = with_bit_inverted(&no_number, IDLE_BIT);
    for number in [0, 23, 24, 128, 255] {
        for (cause, flips) in FLIPS_OF_CHECK_BITS {
            let damaged = idle.flipped(flips).to_bytes();
            let mut padded = damaged;
            padded[10] |= 1;
            assert_eq!(word(number, &padded), Err(Refusal::Shape));
            assert_eq!(word(number, &damaged[..10]), Err(Refusal::Shape));
            let answer = word(number, &damaged).map_err(Refusal::number);
            assert_eq!(answer, Err(cause));
        }
        assert_eq!(word_of(number, &idle), Err(Refusal::Idle));
        assert_eq!(word_of(number, &no_number), Err(Refusal::Number));
        assert_eq!(word_of(number, &no_slot), Err(Refusal::Place));
        for kind in KINDS {
            let string = random.string_of(kind);
            assert_eq!(word_of(number, &string), Err(Refusal::Place));
        }
    }
}

fn four_of_received_frame() -> [NavString; 4] {
    *received_frame().first_chunk().unwrap()
}

#[test]
fn a_record_has_26_words_and_twelve_numbers() {
    let Numbers { words, scaled } = record_of(&four_of_received_frame()).unwrap();
    assert_eq!(
        words,
        [
            0, 1865, -1524643, 0, 29953275, 0, 1, 59, 2380845, 1, -14498293, 1, 0, 3, 0, 2002605,
            -2, 40188871, -29136, 8, 0, 1, 3, 104, 11, 1
        ]
    );
    let names: Vec<&str> = scaled.iter().map(|(name, _)| *name).collect();
    assert_eq!(names.join(" "), "vx ax x vy ay y gamma vz az z tau dtau");
    let raw: Vec<i64> = scaled.iter().map(|(_, scaled)| scaled.raw).collect();
    assert_eq!(
        raw,
        [-1524643, 0, 29953275, 2380845, 1, -14498293, 0, 2002605, -2, 40188871, -29136, 8]
    );
}

/// Four strings of four records, some of them repaired.
#[test]
fn numbers_of_a_record_are_those_of_its_words_one_by_one() {
    let mut random = SplitMix64::new(27);
    for round in 0..200 {
        let mut strings = random.strings_of_a_record();
        if round % 2 == 1 {
            strings[round % 4].flip(9 + random.below(77));
        }
        let numbers = record_of(&strings).unwrap().scaled;
        assert_eq!(numbers.len(), 12);
        for (number, (name, scaled)) in (1..).zip(numbers) {
            let signed = signed_word(number).unwrap();
            let string = &strings[signed.kind.strings[0] - 1];
            assert_eq!(name, signed.name);
            assert_eq!(word_of(number, string), Ok(scaled));
        }
    }
}

/// Every string is wrong in itself, and still it is the length.
#[test]
fn all_four_lengths_are_tested_first() {
    let damaged = with_m(&NavString::zero(), 0).flipped(&[8]).to_bytes();
    for place in 0..4 {
        for length in [0, 1, 10, 12, 255] {
            let mut wrong = damaged.to_vec();
            wrong.resize(length, 0);
            let mut strings = [&damaged[..]; 4];
            strings[place] = &wrong;
            assert_eq!(record(strings), Err(Refusal::Shape));
        }
    }
    let answer = record([&damaged; 4]).map_err(Refusal::number);
    assert_eq!(answer, Err(31));
}

/// Padding is looked for string by string, as the rest is.
#[test]
fn an_earlier_string_is_refused_first() {
    let good = SplitMix64::new(28).strings_of_a_record();
    let mut bytes = good.map(|string| string.to_bytes());
    bytes[3][10] |= 4;
    let answer = |bytes: &[[u8; 11]; 4]| record([&bytes[0], &bytes[1], &bytes[2], &bytes[3]]);
    assert_eq!(answer(&bytes), Err(Refusal::Shape));
    bytes[2] = with_m(&good[2], 4).to_bytes();
    assert_eq!(answer(&bytes), Err(Refusal::Place));
    bytes[1] = with_code(&good[1], &STRING_2.words[2], 96).to_bytes();
    assert_eq!(answer(&bytes), range());
    bytes[0] = with_m(&good[0], 0).to_bytes();
    assert_eq!(answer(&bytes), Err(Refusal::Number));
}

#[test]
fn each_place_takes_its_own_string() {
    let good = SplitMix64::new(29).strings_of_a_record();
    for place in 0..4 {
        for m in 0..=15 {
            let mut strings = good;
            strings[place] = with_m(&good[place], m);
            let expected = match m {
                0 => Some(Refusal::Number),
                _ if m == place + 1 => None,
                _ => Some(Refusal::Place),
            };
            assert_eq!(record_of(&strings).err(), expected);
        }
    }
}

/// An even string has numbers, too, in the paper's order.
#[test]
fn numbers_of_one_string() {
    let kind: &Kind = &EVEN;
    let string = SplitMix64::new(30).string_of(kind);
    let mut numbers = Numbers::default();
    numbers.read(kind, &string.to_bytes()).unwrap();
    let names: Vec<&str> = numbers.scaled.iter().map(|(name, _)| *name).collect();
    assert_eq!(names, ["taua", "lambda", "di"]);
    assert_eq!(numbers.words.len(), kind.words.len());
}
