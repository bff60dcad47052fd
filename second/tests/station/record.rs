//! The immediate record.

use second::known::received_frame;
use second::refusal::Refusal;
use second::station::card::ONE;
use second::station::row::News;
use second::station::Station;
use second::string::NavString;
use second::words::kinds::{STRING_2, TK};

use crate::strings::*;

fn x_of_record(station: &Station) -> Result<i64, Refusal> {
    station.immediate(ONE, 0).map(|record| record.words[4])
}

fn start_of_record(station: &Station) -> Result<u32, Refusal> {
    station.immediate(ONE, 0).map(|record| record.start)
}

#[test]
fn the_string_that_completes_the_four_builds_the_record() {
    for last in 0..4 {
        let mut station = Station::default();
        let mut others = strings_1_to_4(0, 1).to_vec();
        let last = others.remove(last);
        for other in others.iter().rev() {
            let news = offer_in_frame(&mut station, 0, 30, other);
            assert_eq!(news, Ok(News::Kept));
        }
        let news = offer_in_frame(&mut station, 0, 30, &last);
        assert_eq!(news, Ok(News::RecordBuilt));
        assert_eq!(start_of_record(&station), Ok(30));
    }
}

#[test]
fn no_record_before_the_fourth_string() {
    let strings = strings_1_to_4(0, 1);
    for missing in 0..4 {
        let mut station = Station::default();
        for index in (0..4).filter(|&index| index != missing) {
            take_all(&mut station, 0, 30, &[strings[index]]);
        }
        take_all(&mut station, 0, 30, &[string_5(1, 1)]);
        assert_eq!(station.immediate(ONE, 0), Err(Refusal::Nothing));
    }
}

#[test]
fn a_record_is_of_one_frame() {
    let mut station = Station::default();
    take_all(&mut station, 0, 30, &[string_1(0), string_2(0)]);
    take_all(&mut station, 0, 45, &[string_3(), string_4(1)]);
    assert_eq!(station.immediate(ONE, 0), Err(Refusal::Nothing));
}

#[test]
fn the_words_of_the_received_frame() {
    let station = station_with_received_frame(3);
    let words = [
        vec![0, 1865, -1524643, 0, 29953275],
        vec![0, 1, 59, 2380845, 1, -14498293],
        vec![1, 0, 3, 0, 2002605, -2, 40188871],
        vec![-29136, 8, 0, 1, 3, 104, 11, 1],
    ];
    assert_eq!(station.immediate(ONE, 3).unwrap().words, words.concat());
    assert_eq!(station.immediate(ONE, 4), Err(Refusal::Nothing));
}

/// Wrong tk: hour 24, minute 60. Wrong tb: 0 and 96.
fn strings_out_of_range() -> Vec<NavString> {
    let tk = [24 * 128, 60 * 2].map(|code| with_code(&string_1(9), &TK, code));
    let tb = [0, 96].map(|code| with_code(&string_2(0), &STRING_2.words[2], code));
    [tk, tb].concat()
}

#[test]
fn the_record_is_kept_when_the_next_four_are_out_of_range() {
    for wrong in strings_out_of_range() {
        let mut station = Station::default();
        take_all(&mut station, 0, 30, &strings_1_to_4(0, 1));
        let next = [string_1(9), string_2(0), string_3(), string_4(1)];
        take_all(&mut station, 0, 45, &[wrong]);
        let others: Vec<_> = next
            .iter()
            .filter(|string| string.m() != wrong.m())
            .collect();
        let news: Vec<_> = others
            .iter()
            .map(|string| offer_in_frame(&mut station, 0, 45, string))
            .collect();
        assert_eq!(
            news,
            [Ok(News::Kept), Ok(News::Kept), Ok(News::RecordOutOfRange)]
        );
        assert_eq!(x_of_record(&station), Ok(0));
        assert_eq!(start_of_record(&station), Ok(30));
    }
}

#[test]
fn four_strings_out_of_range_build_no_first_record() {
    let mut station = Station::default();
    take_all(
        &mut station,
        0,
        30,
        &[strings_out_of_range()[0], string_2(0), string_3()],
    );
    let answer = offer_in_frame(&mut station, 0, 30, &string_4(1));
    assert_eq!(answer, Ok(News::RecordOutOfRange));
    assert_eq!(station.immediate(ONE, 0), Err(Refusal::Nothing));
}

#[test]
fn strings_after_the_fourth_are_kept_without_news_of_the_record() {
    let mut station = Station::default();
    take_all(&mut station, 0, 30, &strings_1_to_4(0, 1));
    assert_eq!(
        offer_in_frame(&mut station, 0, 30, &string_5(1, 1)),
        Ok(News::Kept)
    );
    assert_eq!(
        offer_in_frame(&mut station, 0, 30, &string_4(1)),
        Ok(News::AlreadyHeld)
    );
}

#[test]
fn the_next_frame_replaces_the_record() {
    let mut station = Station::default();
    take_all(&mut station, 0, 30, &strings_1_to_4(0, 1));
    take_all(&mut station, 0, 45, &[string_1(5), string_2(0), string_3()]);
    assert_eq!(x_of_record(&station), Ok(0));
    assert_eq!(start_of_record(&station), Ok(30));
    assert_eq!(
        offer_in_frame(&mut station, 0, 45, &string_4(1)),
        Ok(News::RecordBuilt)
    );
    assert_eq!(x_of_record(&station), Ok(5));
    assert_eq!(start_of_record(&station), Ok(45));
}

#[test]
fn starts_of_records_have_32_bits() {
    for start in [0, 1, 1 << 31, u32::MAX - 14, u32::MAX - 3] {
        let mut station = Station::default();
        take_all(&mut station, 0, start, &strings_1_to_4(0, 1));
        assert_eq!(start_of_record(&station), Ok(start));
    }
}

#[test]
fn a_reset_takes_the_record() {
    let mut station = station_with_received_frame(0);
    assert!(station.immediate(ONE, 0).is_ok());
    assert_eq!(station.reset(ONE, 0), Ok(()));
    assert_eq!(station.immediate(ONE, 0), Err(Refusal::Nothing));
    take_all(&mut station, 0, 5, &received_frame());
    assert!(station.immediate(ONE, 0).is_ok());
}
