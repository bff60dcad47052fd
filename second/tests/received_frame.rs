//! The frame received from a satellite: fifteen strings, all of them good.

use second::hamming::{check, encode, Verdict};
use second::known::received_frame;
use second::relative::{from_relative, to_relative, Polarity};
use second::words::kinds::kind_of;
use second::words::{read, read_words, word::time_of_day, write};

fn values(m: usize) -> Vec<i64> {
    read_words(kind_of(m), &received_frame()[m - 1]).unwrap()
}

#[test]
fn holds_strings_1_to_15_in_order() {
    let numbers: Vec<usize> = received_frame().iter().map(|string| string.m()).collect();
    assert_eq!(numbers, (1..=15).collect::<Vec<usize>>());
}

#[test]
fn every_string_is_clean_and_encoded() {
    for string in received_frame() {
        assert_eq!(check(&string), Ok((Verdict::Clean, string)));
        assert_eq!(encode(&string), string);
    }
}

#[test]
fn every_string_survives_relative_code_in_both_polarities() {
    for string in received_frame() {
        let symbols = to_relative(&string).unwrap();
        assert_eq!(from_relative(&symbols), (string, Polarity::Upright));
        let inverted = from_relative(&symbols.inverted());
        assert_eq!(inverted, (string, Polarity::Inverted));
    }
}

/// The satellite sends tau c as minus zero: its sign, bit 69, is set and becomes 0.
#[test]
fn strings_read_and_written_again_are_the_same_but_for_one_minus_zero() {
    for mut string in received_frame() {
        let kind = kind_of(string.m());
        let (m, values) = read(kind, &string.to_bytes()).unwrap();
        if m == 5 {
            assert_eq!((values[1], string.bit(69)), (0, true));
            string.set(69, false);
        }
        assert_eq!(write(kind, m, &values), Ok(encode(&string)), "string {m}");
    }
}

/// At 14:36:30 the parameters are those of 14:45, as tb says in quarters of an hour.
#[test]
fn times_of_the_frame_agree() {
    assert_eq!(values(1)[1], time_of_day(14, 36, 1));
    assert_eq!(values(2)[2] * 15, 14 * 60 + 45);
}

#[test]
fn days_of_the_frame_agree() {
    let (current_day, almanac_day) = (values(4)[5], values(5)[0]);
    assert_eq!(current_day, almanac_day);
}

/// A frame of the superframe's fourth part: Table 4.1 gives it satellites 16 to 20.
#[test]
fn almanac_is_that_of_frame_4() {
    let slots: Vec<i64> = [6, 8, 10, 12, 14].map(|m| values(m)[2]).to_vec();
    assert_eq!(slots, [16, 17, 18, 19, 20]);
}

/// Coordinates in units of 2^-11 km: the satellite is some 25,500 km from the
/// centre of the Earth.
#[test]
fn the_satellite_is_on_its_orbit() {
    let coordinates = [values(1)[4], values(2)[5], values(3)[6]];
    let kilometres = coordinates.map(|raw| raw as f64 / 2048.0);
    let radius = kilometres.iter().map(|x| x * x).sum::<f64>().sqrt();
    assert!((25_400.0..25_600.0).contains(&radius), "{radius}");
}
