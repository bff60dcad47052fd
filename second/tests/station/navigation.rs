//! The navigation record: what it needs, how it is refused, its text.

use second::known::received_frame;
use second::navigation::Navigation;
use second::refusal::Refusal;
use second::station::card::{ONE, TWO};
use second::station::Station;
use second::string::NavString;
use second::words::kinds::{
    ALMANAC_DAY, ALMANAC_SLOT, DAY, FOUR_YEAR_PERIOD, H, SATELLITE, TB, TK,
};

use crate::strings::*;

/// On channel 0 the received frame, on channel 9 an entry for its satellite.
fn station_with_all() -> Station {
    let mut station = station_with_received_frame(0);
    show_slot(&mut station, 11);
    station
}

fn show_slot(station: &mut Station, slot: i64) {
    show(
        station,
        9,
        &[string_5(6, 1), even(6, slot, 1, 0), odd(7, 0, 0)],
    );
}

/// Strings 1 to 5 as received, but for one word.
fn received_with(index: usize, word: &second::words::word::Word, code: u128) -> Vec<NavString> {
    let mut strings = received_frame()[..5].to_vec();
    strings[index] = with_code(&strings[index], word, code);
    strings
}

/// A station with an entry for slot 11, these strings on channel 0, and its text there.
fn text_of(strings: &[NavString]) -> Result<String, Refusal> {
    let mut station = Station::default();
    show_slot(&mut station, 11);
    take_all(&mut station, 0, 100, strings);
    text(&station)
}

fn text(station: &Station) -> Result<String, Refusal> {
    Navigation::of(station, ONE, 0)?.written_in(320)
}

#[test]
fn the_text_of_the_received_frame() {
    let expected = "\
11 16  4 13 11 45  0.0 2.713501453400D-05 0.000000000000D+00 4.179000000000D+04
    1.462562255859D+04-1.454012870789D+00 0.000000000000D+00 0.000000000000D+00
   -7.079244628906D+03 2.270550727844D+00 9.313225746155D-10 0.000000000000D+00
    1.962347216797D+04 1.909832954407D+00-1.862645149231D-09 0.000000000000D+00
";
    assert_eq!(text(&station_with_all()).unwrap(), expected);
    assert_eq!(expected.len(), 320);
}

/// The words of each line: B and E at their greatest, H at its least, tau of the other sign.
#[test]
fn b_h_and_e_end_the_lines() {
    let mut strings = received_frame()[..5].to_vec();
    strings[1] = with_number_in(&strings[1], (80, 78), 7);
    strings[3] = with_number_in(&strings[3], (53, 49), 31);
    strings[3] = with_number_in(&strings[3], (80, 59), 175_584);
    let mut station = Station::default();
    let carrier = with_code(&odd(7, 0, 0), &H, 25);
    show(
        &mut station,
        9,
        &[string_5(6, 1), even(6, 11, 1, 0), carrier],
    );
    take_all(&mut station, 0, 100, &strings);
    let text = text(&station).unwrap();
    let lines: Vec<&str> = text.lines().collect();
    assert_eq!(&lines[0][22..41], "-1.635253429413D-04");
    assert_eq!(&lines[1][60..], " 7.000000000000D+00");
    assert_eq!(&lines[2][60..], "-7.000000000000D+00");
    assert_eq!(&lines[3][60..], " 3.100000000000D+01");
}

fn with_number_in(string: &NavString, bits: (usize, usize), number: u128) -> NavString {
    second::alter::with_number(string, bits, number)
}

/// `I2,1X,I2.2,4(1X,I2),F5.1`: of the year alone the first digit may be 0.
#[test]
fn dates_and_satellites_in_their_columns() {
    for (n, period, day, tb, columns) in [
        (1, 1, 1, 1, " 1 95 12 31 21 15  0.0"),
        (24, 2, 1, 12, "24 00  1  1  0  0  0.0"),
        (9, 4, 397, 95, " 9 09  1 31 20 45  0.0"),
        (11, 21, 1461, 95, "11 79 12 31 20 45  0.0"),
    ] {
        let mut strings = received_frame()[..5].to_vec();
        strings[1] = with_code(&strings[1], &TB, tb);
        strings[3] = with_code(&strings[3], &SATELLITE, n);
        strings[3] = with_code(&strings[3], &DAY, day);
        strings[4] = with_code(&strings[4], &FOUR_YEAR_PERIOD, period);
        let mut station = Station::default();
        show_slot(&mut station, n as i64);
        take_all(&mut station, 0, 100, &strings);
        assert_eq!(&text(&station).unwrap()[..22], columns);
    }
}

#[test]
fn minus_zero_is_zero() {
    let tau = &second::words::kinds::STRING_4.words[0];
    let text = text_of(&received_with(3, tau, 1 << 21)).unwrap();
    assert_eq!(&text[22..41], " 0.000000000000D+00");
}

#[test]
fn the_cards_refusals_come_first() {
    let station = station_with_all();
    for (card, channel, refusal) in [
        (0, 0, Refusal::Card),
        (3, 48, Refusal::Card),
        (255, 24, Refusal::Card),
        (ONE, 48, Refusal::Channel),
        (TWO, 255, Refusal::Channel),
        (ONE, 24, Refusal::Owner),
        (TWO, 0, Refusal::Owner),
        (ONE, 1, Refusal::Nothing),
        (TWO, 24, Refusal::Nothing),
    ] {
        let answer = Navigation::of(&station, card, channel);
        assert_eq!(answer, Err(refusal), "{card} {channel}");
        assert_eq!(station.five_of(card, channel), Err(refusal));
    }
}

/// Strings 1 to 4 without string 5, string 5 without them, and no entry.
#[test]
fn without_record_string_5_or_entry_there_is_nothing() {
    let frame = received_frame();
    assert_eq!(text_of(&frame[..4]), Err(Refusal::Nothing));
    assert_eq!(text_of(&frame[1..5]), Err(Refusal::Nothing));
    assert_eq!(text(&station_with_received_frame(0)), Err(Refusal::Nothing));
    assert!(text_of(&frame[..5]).is_ok());
}

#[test]
fn an_n_without_a_slot_is_nothing() {
    for n in [0, 25, 31] {
        let answer = text_of(&received_with(3, &SATELLITE, n));
        assert_eq!(answer, Err(Refusal::Nothing), "{n}");
    }
}

#[test]
fn nothing_comes_before_the_words_and_they_before_the_room() {
    let mut station = Station::default();
    let mut strings = received_with(3, &DAY, 0);
    strings[4] = with_code(&strings[4], &FOUR_YEAR_PERIOD, 0);
    take_all(&mut station, 0, 100, &strings);
    assert_eq!(text(&station), Err(Refusal::Nothing));
    show_slot(&mut station, 11);
    assert_eq!(text(&station), Err(Refusal::Range { place: 26 }));
    let answer = text_of(&received_with(4, &FOUR_YEAR_PERIOD, 0));
    assert_eq!(answer, Err(Refusal::Range { place: 36 }));
}

#[test]
fn days_and_periods_have_their_ends() {
    for day in [0, 1, 1461, 1462, 2047] {
        let answer = text_of(&received_with(3, &DAY, day));
        match day {
            1..=1461 => assert!(answer.is_ok(), "{day}"),
            _ => assert_eq!(answer, Err(Refusal::Range { place: 26 })),
        }
    }
    for period in 0..32 {
        let answer = text_of(&received_with(4, &FOUR_YEAR_PERIOD, period));
        match period {
            1..=21 => assert!(answer.is_ok(), "{period}"),
            _ => assert_eq!(answer, Err(Refusal::Range { place: 36 })),
        }
    }
}

#[test]
fn every_room_but_320_is_refused() {
    let station = station_with_all();
    let navigation = Navigation::of(&station, ONE, 0).unwrap();
    for room in (0..=1024).filter(|&room| room != 320) {
        assert_eq!(navigation.written_in(room), Err(Refusal::RecordRoom));
    }
    assert_eq!(navigation.written_in(320).unwrap().len(), 320);
}

/// "Its NA may be out of range: it counts all the same."
#[test]
fn string_5_counts_with_any_almanac_day() {
    let expected = text_of(&received_frame()[..5]);
    for code in [0, 1, 1462, 2047] {
        let strings = received_with(4, &ALMANAC_DAY, code);
        assert_eq!(text_of(&strings), expected);
        let mut station = Station::default();
        take_all(&mut station, 0, 100, &strings);
        let words = [code as i64, 0, 6, -4, 0];
        assert_eq!(station.five_of(ONE, 0).unwrap(), words);
    }
}

/// Any string of the next frame takes string 5 away, and its own does not stand in.
#[test]
fn string_5_counts_as_missing_once_another_frame_is_held() {
    let frame = received_frame();
    for string in &frame {
        let mut station = station_with_all();
        take_all(&mut station, 0, 115, &[*string]);
        assert_eq!(text(&station), Err(Refusal::Nothing));
        assert_eq!(station.five_of(ONE, 0), Err(Refusal::Nothing));
        assert!(station.immediate(ONE, 0).is_ok());
    }
    let mut station = station_with_all();
    take_all(
        &mut station,
        0,
        115,
        &[frame[4], frame[0], frame[1], frame[2]],
    );
    assert_eq!(text(&station), Err(Refusal::Nothing));
    take_all(&mut station, 0, 115, &[frame[3]]);
    assert!(text(&station).is_ok());
}

/// The former record stays with its start, so the string 5 that is held is not its own.
#[test]
fn a_frame_out_of_range_lends_its_string_5_to_no_record() {
    for (index, word, code) in [(0, &TK, 24 * 128), (1, &TB, 96)] {
        let mut station = station_with_all();
        take_all(&mut station, 0, 115, &received_with(index, word, code));
        assert_eq!(station.immediate(ONE, 0).unwrap().start, 100);
        assert_eq!(text(&station), Err(Refusal::Nothing));
        take_all(&mut station, 0, 130, &received_frame());
        assert_eq!(station.immediate(ONE, 0).unwrap().start, 130);
        assert_eq!(text(&station), text(&station_with_all()));
    }
}

#[test]
fn a_reset_takes_the_text_and_the_book_stays() {
    let mut station = station_with_all();
    station.reset(ONE, 9).unwrap();
    assert!(text(&station).is_ok());
    station.reset(ONE, 0).unwrap();
    assert_eq!(text(&station), Err(Refusal::Nothing));
    take_all(&mut station, 0, 0, &received_frame());
    assert!(text(&station).is_ok());
}

/// The book is both cards', and so is the carrier.
#[test]
fn card_two_has_texts_by_entries_of_card_one() {
    let mut station = Station::default();
    take_all_by(TWO, &mut station, 47, 100, &received_frame());
    assert_eq!(Navigation::of(&station, TWO, 47), Err(Refusal::Nothing));
    show_slot(&mut station, 11);
    let own = Navigation::of(&station, TWO, 47).unwrap();
    assert_eq!(own.written_in(320), text(&station_with_all()));
}

#[test]
fn carriers_are_their_meanings() {
    for (code, meaning) in (0..=13).zip(0..).chain((25..=31).zip(-7..)) {
        let mut station = Station::default();
        let string_7 = with_code(&odd(7, 0, 1), &H, code);
        let string_6 = with_code(&even(6, 1, 1, 0), &ALMANAC_SLOT, 24);
        show(&mut station, 9, &[string_5(6, 1), string_6, string_7]);
        assert_eq!(station.entry(TWO, 24).unwrap().carrier(), meaning);
    }
}
