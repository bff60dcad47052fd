//! Health: unknown, usable, not usable.

use second::station::card::ONE;
use second::station::{Health, Station};
use second::string::NavString;
use second::words::kinds::{L, L_OF_STRING_3, SATELLITE_TYPE, STRING_2};

use crate::strings::*;

/// The almanac of a satellite, on a day of its own.
fn almanac(slot: i64, c: i64, day: i64) -> [NavString; 3] {
    [string_5(6, day), even(6, slot, c, 0), odd(7, 0, 0)]
}

/// The health of a record once its satellite's almanac has come.
fn health_of(strings: &[NavString], slot: i64, c: i64) -> Health {
    let mut station = Station::default();
    take_all(&mut station, 0, 100, strings);
    take_all(&mut station, 1, 100, &almanac(slot, c, 1));
    station.health(ONE, 0).unwrap()
}

fn health(b: i64, n: i64, slot: i64, c: i64) -> Health {
    health_of(&strings_1_to_4(b, n), slot, c)
}

/// The same four strings with these codes of M and l.
fn with_m_and_l(strings: [NavString; 4], code_of_m: u128, l: u128) -> [NavString; 4] {
    let [first, second, third, fourth] = strings;
    let third = with_code(&third, &L_OF_STRING_3, l);
    let fourth = with_code(&fourth, &SATELLITE_TYPE, code_of_m);
    [first, second, third, fourth]
}

/// Satellite 5 with B at 0.
fn satellite(code_of_m: u128, l: u128) -> [NavString; 4] {
    with_m_and_l(strings_1_to_4(0, 5), code_of_m, l)
}

/// Satellite 5 is in the book with C = 1.
fn station_with_entry() -> Station {
    let mut station = Station::default();
    take_all(&mut station, 1, 100, &almanac(5, 1, 1));
    station
}

/// M and l with which a satellite is usable, where B and C let it.
const USABLE: [(u128, u128); 5] = [(0b00, 0), (0b00, 1), (0b01, 0), (0b10, 0), (0b11, 0)];

#[test]
fn usable_by_b_and_c_and_by_l_unless_m_is_00() {
    for (code_of_m, l) in every_m_and_l() {
        for b in 0..8 {
            for c in 0..2 {
                let strings = with_m_and_l(strings_1_to_4(b, 5), code_of_m, l);
                let expected = match (USABLE.contains(&(code_of_m, l)), b, c) {
                    (true, 0..=3, 1) => Health::Usable,
                    _ => Health::NotUsable,
                };
                let what = format!("M {code_of_m}, l {l}, B {b}, C {c}");
                assert_eq!(health_of(&strings, 5, c), expected, "{what}");
            }
        }
    }
}

fn every_m_and_l() -> impl Iterator<Item = (u128, u128)> {
    (0..4).flat_map(|code_of_m| [(code_of_m, 0), (code_of_m, 1)])
}

fn expected_of((code_of_m, l): (u128, u128)) -> Health {
    match USABLE.contains(&(code_of_m, l)) {
        true => Health::Usable,
        false => Health::NotUsable,
    }
}

/// "Reader, record and encoder, which see string 3 without M, carry it as l as before."
#[test]
fn the_record_carries_l_whatever_m_is() {
    for (code_of_m, l) in every_m_and_l() {
        let mut station = station_with_entry();
        take_all(&mut station, 0, 100, &satellite(code_of_m, l));
        let words = &station.immediate(ONE, 0).unwrap().words;
        assert_eq!((words[14], words[25]), (l as i64, code_of_m as i64));
    }
}

#[test]
fn no_other_bit_of_string_3_and_no_other_l_makes_a_satellite_unfit() {
    for bit in (9..=80).filter(|&bit| bit != 65) {
        let mut strings = satellite(1, 0);
        strings[2] = with_bit_inverted(&strings[2], bit);
        assert_eq!(health_of(&strings, 5, 1), Health::Usable, "bit {bit}");
    }
    let mut station = Station::default();
    let [string_5, even, odd] = almanac(5, 1, 1);
    let with_l = [with_code(&string_5, &L, 1), even, with_code(&odd, &L, 1)];
    take_all(&mut station, 0, 100, &satellite(1, 0));
    take_all(&mut station, 0, 100, &with_l);
    assert_eq!(station.health(ONE, 0), Ok(Health::Usable));
}

#[test]
fn unknown_until_the_fourth_string_and_then_as_the_record_says() {
    for (code_of_m, l) in every_m_and_l() {
        for last in 0..4 {
            let mut station = station_with_entry();
            let mut strings = satellite(code_of_m, l);
            strings.rotate_left(last);
            for string in &strings[..3] {
                take_all(&mut station, 0, 100, &[*string]);
                assert_eq!(station.health(ONE, 0), Ok(Health::Unknown));
            }
            take_all(&mut station, 0, 100, &strings[3..]);
            assert_eq!(station.health(ONE, 0), Ok(expected_of((code_of_m, l))));
        }
    }
}

/// B, l and M are the kept record's, and not those of the frame being heard.
#[test]
fn a_later_frame_counts_once_its_four_strings_have_come() {
    for first in every_m_and_l() {
        for next in every_m_and_l() {
            for last in 0..4 {
                let mut station = station_with_entry();
                take_all(&mut station, 0, 100, &satellite(first.0, first.1));
                let mut strings = satellite(next.0, next.1);
                strings.rotate_left(last);
                for string in &strings[..3] {
                    take_all(&mut station, 0, 115, &[*string]);
                    assert_eq!(station.health(ONE, 0), Ok(expected_of(first)));
                }
                take_all(&mut station, 0, 115, &strings[3..]);
                assert_eq!(station.health(ONE, 0), Ok(expected_of(next)));
            }
        }
    }
}

#[test]
fn a_later_frame_out_of_range_never_counts() {
    for (first, next) in [((1, 0), (1, 1)), ((1, 1), (1, 0)), ((1, 1), (0, 1))] {
        let mut station = station_with_entry();
        take_all(&mut station, 0, 100, &satellite(first.0, first.1));
        let mut strings = satellite(next.0, next.1);
        strings[1] = with_code(&strings[1], &STRING_2.words[2], 0);
        take_all(&mut station, 0, 115, &strings);
        assert_eq!(station.health(ONE, 0), Ok(expected_of(first)));
    }
}

/// n is the kept record's, too: 6 is not in the book.
#[test]
fn a_later_frame_of_another_satellite_counts_once_it_is_complete() {
    let mut station = station_with_entry();
    take_all(&mut station, 0, 100, &satellite(1, 0));
    let [first, second, third, fourth] = strings_1_to_4(0, 6);
    take_all(&mut station, 0, 115, &[fourth, third, first]);
    assert_eq!(station.health(ONE, 0), Ok(Health::Usable));
    take_all(&mut station, 0, 115, &[second]);
    assert_eq!(station.health(ONE, 0), Ok(Health::Unknown));
}

#[test]
fn unknown_without_a_record() {
    let mut station = Station::default();
    take_all(&mut station, 0, 100, &almanac(5, 1, 1));
    assert_eq!(station.health(ONE, 0), Ok(Health::Unknown));
}

#[test]
fn unknown_without_an_entry_for_n() {
    for n in 0..32 {
        let expected = match n {
            5 => Health::Usable,
            _ => Health::Unknown,
        };
        assert_eq!(health(0, n, 5, 1), expected, "n {n}");
    }
}

#[test]
fn every_slot_is_found() {
    for n in 1..=24 {
        assert_eq!(health(0, n, n, 1), Health::Usable);
    }
}

#[test]
fn a_later_day_changes_the_health() {
    let mut station = Station::default();
    take_all(&mut station, 0, 100, &strings_1_to_4(0, 5));
    for (day, c, expected) in [
        (1, 1, Health::Usable),
        (2, 0, Health::NotUsable),
        (1, 1, Health::NotUsable),
        (3, 1, Health::Usable),
    ] {
        station.reset(ONE, 1).unwrap();
        take_all(&mut station, 1, 100, &almanac(5, c, day));
        assert_eq!(station.health(ONE, 0), Ok(expected));
    }
}

#[test]
fn a_new_record_changes_the_health_and_a_reset_takes_it() {
    let mut station = Station::default();
    take_all(&mut station, 1, 100, &almanac(5, 1, 1));
    take_all(&mut station, 0, 100, &strings_1_to_4(0, 5));
    assert_eq!(station.health(ONE, 0), Ok(Health::Usable));
    take_all(&mut station, 0, 115, &strings_1_to_4(4, 5));
    assert_eq!(station.health(ONE, 0), Ok(Health::NotUsable));
    station.reset(ONE, 0).unwrap();
    assert_eq!(station.health(ONE, 0), Ok(Health::Unknown));
}

/// The received frame is of satellite 11 and shows the almanac of 16 to 20.
#[test]
fn the_received_frame_alone_leaves_its_satellite_unknown() {
    let mut station = station_with_received_frame(0);
    assert_eq!(station.health(ONE, 0), Ok(Health::Unknown));
    take_all(&mut station, 1, 100, &almanac(11, 1, 1));
    assert_eq!(station.health(ONE, 0), Ok(Health::Usable));
}
