//! The listing program.

use second::known::{B, B_DAMAGED, B_INVERTED, FLIPS_TAKEN_FOR_BIT_85};
use second::listing::{answer_stream, Record};
use second::make;
use second::relative::to_relative;
use second::string::NavString;

use crate::strings::*;

fn lines(input: &[u8]) -> String {
    let mut output = Vec::new();
    answer_stream(input, &mut output).unwrap();
    String::from_utf8(output).unwrap()
}

fn record(channel: u8, epoch: u32, string: &NavString) -> Vec<u8> {
    let symbols = to_relative(string).unwrap().to_bytes();
    Record {
        channel,
        epoch,
        symbols,
    }
    .to_bytes()
}

/// The same record with all 85 symbols inverted.
fn inverted(record: &[u8]) -> Vec<u8> {
    let mut inverted = record.to_vec();
    inverted[5..15].iter_mut().for_each(|byte| *byte ^= 0xFF);
    inverted[15] ^= 0xF8;
    inverted
}

#[test]
fn the_papers_example() {
    let mut input = vec![0, 0, 0, 0, 0x64];
    input.extend(B_INVERTED);
    input.extend([0x18, 0, 0, 0, 7]);
    input.extend(B);
    input.extend([1, 2, 3]);
    assert_eq!(lines(&input), "0 100 0 0 1 1\n24 7 15 0 0 0\nshort 3\n");
}

#[test]
fn no_input_prints_nothing() {
    assert_eq!(lines(&[]), "");
    for count in 1..16 {
        assert_eq!(lines(&vec![0; count]), format!("short {count}\n"));
    }
}

/// Every string but the damaged ones has bit 20 flipped; the first and the last are
/// taken and the others are refused with 1, 15, and 2 to 9, in the position of 3 with 31
/// to 33.
fn records_of_every_number() -> Vec<Vec<u8>> {
    let string = string_1(1);
    let flipped = |string: &NavString| string.flipped(&[20]);
    let mut shape = record(0, 100, &flipped(&string));
    shape[15] |= 1;
    vec![
        record(0, 100, &flipped(&string)),
        record(48, 100, &flipped(&string)),
        record(47, 100, &flipped(&string)),
        shape,
        record(0, 100, &string.flipped(&[8])),
        record(0, 100, &string.flipped(&[20, 21])),
        record(0, 100, &string.flipped(&[84, 8, 3])),
        record(0, 100, &string.flipped(&FLIPS_TAKEN_FOR_BIT_85)),
        record(0, 100, &flipped(&with_m(&string, 0))),
        record(0, 1, &flipped(&string_3())),
        record(0, 99, &flipped(&string)),
        record(0, 101, &flipped(&string)),
        record(0, 100, &flipped(&string_1(2))),
        record(0, 100, &flipped(&string)),
    ]
}

#[test]
fn the_repaired_bit_shows_from_5_on_and_m_from_6_on() {
    let expected = "0 100 0 20 1 0
48 100 1 0 0 0
47 100 15 0 0 0
0 100 2 0 0 0
0 100 31 0 0 0
0 100 32 0 0 0
0 100 33 0 0 0
0 100 4 0 0 0
0 100 5 20 0 0
0 1 6 20 3 0
0 99 7 20 1 0
0 101 8 20 1 0
0 100 9 20 1 0
0 100 0 20 1 0
";
    assert_eq!(lines(&records_of_every_number().concat()), expected);
}

/// All records inverted: the two that are taken say so, the refused ones do not.
#[test]
fn refused_records_have_no_polarity() {
    let records = records_of_every_number();
    let upright = lines(&records.concat());
    let inverted: Vec<Vec<u8>> = records.iter().map(|record| inverted(record)).collect();
    let expected = upright.replace("0 100 0 20 1 0", "0 100 0 20 1 1");
    assert_eq!(expected.matches("1 1\n").count(), 2);
    assert_eq!(lines(&inverted.concat()), expected);
}

#[test]
fn an_inverted_string_that_is_stale_prints_0() {
    let input = [
        inverted(&record(5, 100, &string_1(1))),
        inverted(&record(5, 99, &string_1(1))),
    ];
    assert_eq!(lines(&input.concat()), "5 100 0 0 1 1\n5 99 7 0 1 0\n");
}

#[test]
fn damaged_strings_print_31_to_33_and_zeros() {
    let records = B_DAMAGED.map(|(_, symbols)| {
        Record {
            channel: 3,
            epoch: 7,
            symbols,
        }
        .to_bytes()
    });
    let expected = "3 7 31 0 0 0\n3 7 32 0 0 0\n3 7 33 0 0 0\n";
    assert_eq!(lines(&records.concat()), expected);
}

#[test]
fn epochs_print_as_32_bit_numbers() {
    let input = record(7, u32::MAX, &string_1(1));
    assert_eq!(lines(&input), "7 4294967295 0 0 1 0\n");
}

fn made(seed: u64, count: u64) -> Vec<u8> {
    let mut bytes = Vec::new();
    make::write_listing(seed, count, &mut bytes).unwrap();
    bytes
}

fn require_every_number(input: &[u8]) {
    let lines = lines(input);
    let has = |number: u8| {
        let has_number = |line: &str| line.split(' ').nth(2) == Some(&number.to_string());
        lines.lines().any(has_number)
    };
    for number in [0, 1, 15, 2, 31, 32, 33].into_iter().chain(4..=9) {
        assert!(has(number), "{number}");
    }
    assert!(!has(3));
}

#[test]
fn made_records_follow_from_their_seed_and_draw_every_number() {
    let input = made(1, 10_000);
    assert_eq!(input.len(), 160_000);
    assert_eq!(input, made(1, 10_000));
    assert_eq!(input[..1600], made(1, 100));
    assert_ne!(input, made(2, 10_000));
    require_every_number(&input);
}

/// The seed and the count are those of the stored input.
#[test]
fn the_stored_records_draw_every_number() {
    require_every_number(&made(20260, 20_000));
}
