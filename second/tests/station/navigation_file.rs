//! The navigation file: its header, and which records come when.

use second::known::{received_frame, B};
use second::make;
use second::navigation::file::answer_stream;
use second::relative::to_relative;
use second::station::card::{ONE, TWO};
use second::string::NavString;
use second::words::kinds::{FOUR_YEAR_PERIOD, SATELLITE, TB};

use crate::strings::*;

const HEADER: &str =
    "     2.11           G: GLONASS NAV DATA                     RINEX VERSION / TYPE
Spineyarrow                                                 PGM / RUN BY / DATE\u{20}
                                                            END OF HEADER      \u{20}
";

fn file_of(card: u8, capture: &[u8]) -> String {
    let mut output = Vec::new();
    answer_stream(card, capture, &mut output).unwrap();
    String::from_utf8(output).unwrap()
}

/// The satellite and the epoch of each record: the first columns of its first line.
fn epochs(card: u8, capture: &[u8]) -> Vec<String> {
    let file = file_of(card, capture);
    let records = file.strip_prefix(HEADER).expect("the header");
    assert_eq!(records.len() % 320, 0);
    let lines: Vec<&str> = records.lines().collect();
    assert!(lines.iter().all(|line| line.len() == 79));
    let firsts = lines.iter().step_by(4);
    firsts.map(|line| String::from(&line[..17])).collect()
}

/// As records of the capture, in the frame with this start.
fn sent(channel: u8, start: u32, strings: &[NavString]) -> Vec<u8> {
    let record = |string: &NavString| {
        let epoch = start + string.m() as u32 - 1;
        let symbols = to_relative(string).unwrap().to_bytes();
        [&[channel], &epoch.to_be_bytes()[..], &symbols].concat()
    };
    strings.iter().flat_map(record).collect()
}

/// Strings 1 to 5 as received, of this satellite, with this tb.
fn frame(n: u128, tb: u128) -> Vec<NavString> {
    let mut strings = received_frame()[..5].to_vec();
    strings[1] = with_code(&strings[1], &TB, tb);
    strings[3] = with_code(&strings[3], &SATELLITE, n);
    strings
}

/// An entry for this slot.
fn entry(channel: u8, start: u32, slot: i64) -> Vec<u8> {
    let three = [string_5(6, 1), even(6, slot, 1, 0), odd(7, 0, 0)];
    sent(channel, start, &three)
}

/// A string that will be refused: nothing is changed but a tally.
fn refused(channel: u8) -> Vec<u8> {
    [&[channel, 0, 0, 0, 0], &B[..]].concat()
}

#[test]
fn the_header_has_three_lines_of_80_columns() {
    assert_eq!(HEADER.len(), 3 * 81);
    assert!(HEADER.lines().all(|line| line.len() == 80));
    for card in [ONE, TWO] {
        assert_eq!(file_of(card, &[]), HEADER);
    }
}

#[test]
fn bytes_left_over_are_not_looked_at() {
    for card in [ONE, TWO] {
        for length in 0..16 {
            assert_eq!(file_of(card, &[0; 16][..length]), HEADER);
        }
    }
    let whole = [entry(9, 50, 11), sent(0, 100, &frame(11, 59))].concat();
    let expected = file_of(ONE, &whole);
    let more = [whole, sent(0, 115, &frame(11, 60))[..15].to_vec()].concat();
    assert_eq!(file_of(ONE, &more), expected);
}

#[test]
fn a_record_at_the_end_of_the_input() {
    let capture = [entry(9, 50, 11), sent(0, 100, &frame(11, 59))].concat();
    let file = file_of(ONE, &capture);
    let text = "\
11 16  4 13 11 45  0.0 2.713501453400D-05 0.000000000000D+00 4.179000000000D+04
    1.462562255859D+04-1.454012870789D+00 0.000000000000D+00 0.000000000000D+00
   -7.079244628906D+03 2.270550727844D+00 9.313225746155D-10 0.000000000000D+00
    1.962347216797D+04 1.909832954407D+00-1.862645149231D-09 0.000000000000D+00
";
    assert_eq!(file, [HEADER, text].concat());
}

/// Before the offer that takes the frame away; without a question there it would be lost.
#[test]
fn a_channel_is_asked_before_its_next_string() {
    let next = frame(11, 60)[0];
    let capture = [
        entry(9, 50, 11),
        sent(0, 100, &frame(11, 59)),
        sent(0, 115, &[next]),
    ];
    assert_eq!(epochs(ONE, &capture.concat()), ["11 16  4 13 11 45"]);
}

/// Only the channel of the string: the others are asked at the end.
#[test]
fn a_refused_string_asks_its_channel_too() {
    let frames = [sent(0, 100, &frame(11, 59)), sent(1, 100, &frame(12, 59))];
    let entries = [entry(9, 50, 11), entry(9, 65, 12)];
    let whole = [entries.concat(), frames.concat()].concat();
    let in_order = ["11 16  4 13 11 45", "12 16  4 13 11 45"];
    assert_eq!(epochs(ONE, &whole), in_order);
    for (channel, expected) in [(0, in_order), (1, [in_order[1], in_order[0]])] {
        let capture = [&whole[..], &refused(channel), &entry(9, 80, 13)].concat();
        assert_eq!(epochs(ONE, &capture), expected, "channel {channel}");
    }
}

#[test]
fn an_entry_that_comes_later_brings_the_record() {
    let capture = [
        sent(0, 100, &frame(11, 59)),
        refused(0),
        entry(9, 50, 11),
        refused(0),
        sent(0, 115, &frame(11, 60)[..3]),
    ];
    assert_eq!(epochs(ONE, &capture.concat()), ["11 16  4 13 11 45"]);
    let before_the_entry = &capture[..2];
    assert!(epochs(ONE, &before_the_entry.concat()).is_empty());
}

#[test]
fn the_same_epoch_is_written_once() {
    let mut capture = entry(9, 50, 11);
    for (start, channel) in [(100, 0), (115, 0), (100, 1), (130, 0), (145, 2)] {
        capture.extend(sent(channel, start, &frame(11, 59)));
    }
    assert_eq!(epochs(ONE, &capture), ["11 16  4 13 11 45"]);
}

/// Another than the one last written, be it earlier; N4 tells epochs apart, too.
#[test]
fn every_other_epoch_is_written() {
    let mut other_period = frame(11, 59);
    other_period[4] = with_code(&other_period[4], &FOUR_YEAR_PERIOD, 5);
    let frames = [frame(11, 59), frame(11, 60), frame(11, 59), other_period];
    let mut capture = entry(9, 50, 11);
    for (index, strings) in (0..).zip(&frames) {
        capture.extend(sent(0, 100 + 15 * index, strings));
    }
    let expected = [
        "11 16  4 13 11 45",
        "11 16  4 13 12  0",
        "11 16  4 13 11 45",
        "11 12  4 13 11 45",
    ];
    assert_eq!(epochs(ONE, &capture), expected);
}

#[test]
fn satellites_of_one_epoch_are_written_each() {
    let mut capture = Vec::new();
    for n in 1..=24 {
        capture.extend(entry(9, 15 * n as u32, n));
    }
    for n in 0..32 {
        capture.extend(sent(0, 500 + 15 * n as u32, &frame(n, 59)));
    }
    let expected: Vec<String> = (1..=24).map(|n| format!("{n:2} 16  4 13 11 45")).collect();
    assert_eq!(epochs(ONE, &capture), expected);
}

/// The channels in order, not the strings.
#[test]
fn the_channels_of_the_card_at_the_end() {
    for (card, first, last) in [(ONE, 0, 23), (TWO, 24, 47)] {
        let mut capture = Vec::new();
        for n in 1..=24 {
            capture.extend(entry(first, 15 * n as u32, n));
        }
        for channel in (first..=last).rev() {
            let n = u128::from(channel - first) + 1;
            capture.extend(sent(channel, 500, &frame(n, 59)));
        }
        let found = epochs(card, &capture);
        let expected: Vec<String> = (1..=24).map(|n| format!("{n:2} 16  4 13 11 45")).collect();
        assert_eq!(found, expected, "card {card}");
        assert!(epochs(3 - card, &capture).is_empty());
    }
}

#[test]
fn channels_that_are_not_the_cards_write_nothing_and_show_nothing() {
    let capture = [entry(9, 50, 11), sent(24, 100, &frame(11, 59))].concat();
    assert_eq!(file_of(ONE, &capture), HEADER);
    assert_eq!(file_of(TWO, &capture), HEADER);
    for channel in [48, 128, 255] {
        let capture = [entry(channel, 50, 11), sent(channel, 100, &frame(11, 59))].concat();
        assert_eq!(file_of(ONE, &capture), HEADER);
        assert_eq!(file_of(TWO, &capture), HEADER);
    }
}

#[test]
fn the_file_of_the_sample() {
    let expected = ["7 17  1  4 21 30", "12 16  3 21 12  0", "11 16  4 13 11 45"];
    let found = epochs(ONE, &make::sample_for_listing());
    let found: Vec<&str> = found.iter().map(|epoch| epoch.trim_start()).collect();
    assert_eq!(found, expected);
    assert_eq!(file_of(TWO, &make::sample_for_listing()), HEADER);
}
