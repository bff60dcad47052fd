//! The made input asks for navigation records of every kind. The seed is that of the stored
//! input.

use std::collections::HashSet;

use second::make;
use second::request::{pieces, Piece, CARRIER, FIVE_OF, IMMEDIATE, NAVIGATION};
use second::station::Station;
use second::trial::answer_piece;
use second::trial::sites::Sites;

/// Where the words stand in the record that request 8 prints.
const TK: usize = 1;
const TB: usize = 7;
const B: usize = 5;
const E: usize = 20;
const DAY: usize = 23;
const N: usize = 24;

/// The signed words that are written, with their units: x, y and z, their velocities and
/// accelerations, gamma and tau.
const NUMBERS: [(usize, u32); 11] = [
    (4, 11),
    (10, 11),
    (17, 11),
    (2, 20),
    (8, 20),
    (15, 20),
    (3, 30),
    (9, 30),
    (16, 30),
    (12, 40),
    (18, 30),
];

/// A request and its line, and what the station had for it: the words and the start of the
/// record, N4 of its string 5, and whether the book has its n.
struct Asked {
    op: u8,
    payload: Vec<u8>,
    line: String,
    record: Option<(Vec<i64>, u32)>,
    period: Option<i64>,
    has_entry: bool,
}

/// All requests 18, 24 and 25.
fn asked() -> Vec<Asked> {
    let mut sites = Sites::default();
    let mut found = Vec::new();
    for piece in pieces(&make::trial_input(20260)) {
        let line = answer_piece(&mut sites, piece);
        let Piece::Whole(request) = piece else {
            continue;
        };
        if [NAVIGATION, FIVE_OF, CARRIER].contains(&request.op) {
            found.push(with_station(
                &sites.in_use,
                request.op,
                request.payload,
                line,
            ));
        }
    }
    found
}

fn with_station(station: &Station, op: u8, payload: &[u8], line: String) -> Asked {
    let (card, channel) = match *payload {
        [card, channel, ..] => (card, usize::from(channel)),
        _ => (0, 0),
    };
    let record = station.immediate(card, channel).ok();
    Asked {
        op,
        payload: payload.to_vec(),
        line,
        period: station.five_of(card, channel).ok().map(|words| words[2]),
        has_entry: record.is_some_and(|record| station.entry(card, record.satellite).is_ok()),
        record: record.map(|record| (record.words.clone(), record.start)),
    }
}

fn texts() -> Vec<Asked> {
    let is_text = |asked: &Asked| asked.op == NAVIGATION && asked.line.starts_with("ok");
    asked().into_iter().filter(is_text).collect()
}

fn words_of_texts() -> Vec<Vec<i64>> {
    let words = |asked: Asked| asked.record.map(|(words, _)| words);
    texts().into_iter().filter_map(words).collect()
}

#[test]
fn every_request_has_every_answer() {
    let found: HashSet<(u8, String)> = asked()
        .into_iter()
        .map(|asked| match asked.line.starts_with("ok") {
            true => (asked.op, String::from("ok")),
            false => (asked.op, asked.line),
        })
        .collect();
    for (op, lines) in [
        (
            NAVIGATION,
            &[
                "ok", "no 16", "no 1", "no 15", "no 13", "no 10 26", "no 10 36", "no 17", "bad 18",
            ][..],
        ),
        (
            FIVE_OF,
            &["ok", "no 16", "no 1", "no 15", "no 13", "bad 24"],
        ),
        (CARRIER, &["ok", "no 16", "no 14", "no 13", "bad 25"]),
    ] {
        for line in lines {
            assert!(found.contains(&(op, String::from(*line))), "{op}: {line}");
        }
    }
    assert_eq!(found.len(), 9 + 6 + 5);
}

#[test]
fn every_card_asks_for_every_channel_in_every_room() {
    let found: HashSet<Vec<u8>> = asked()
        .into_iter()
        .filter(|asked| asked.op == NAVIGATION)
        .map(|asked| asked.payload)
        .collect();
    for card in [0, 1, 2, 3] {
        for channel in [0, 23, 24, 47, 48, 255] {
            for room in [0_u16, 319, 320, 321, 1024, 1025] {
                let [high, low] = room.to_be_bytes();
                assert!(found.contains(&vec![card, channel, high, low]));
            }
        }
    }
}

#[test]
fn both_cards_ask_for_every_slot_and_every_carrier() {
    let found: HashSet<(Vec<u8>, String)> = asked()
        .into_iter()
        .filter(|asked| asked.op == CARRIER)
        .map(|asked| (asked.payload, asked.line))
        .collect();
    for card in [1, 2] {
        for carrier in -7..=13 {
            let line = format!("ok {carrier}");
            let is_wanted =
                |(payload, text): &(Vec<u8>, String)| payload.starts_with(&[card]) && *text == line;
            assert!(found.iter().any(is_wanted), "{card}: {carrier}");
        }
        for slot in [0, 25, 255] {
            assert!(found.contains(&(vec![card, slot], String::from("no 14"))));
        }
        for slot in [1, 24] {
            assert!(found.contains(&(vec![card, slot], String::from("no 13"))));
        }
    }
}

/// Record, string 5 and entry, each there and not: no entry counts without a record.
#[test]
fn whatever_can_be_missing_is_missing() {
    let found: HashSet<(bool, bool, bool)> = asked()
        .iter()
        .filter(|asked| asked.op == NAVIGATION && asked.line == "no 13")
        .map(|asked| {
            let has_string_5 = asked.period.is_some();
            (asked.record.is_some(), has_string_5, asked.has_entry)
        })
        .collect();
    for missing in [
        (false, false, false),
        (true, false, false),
        (true, false, true),
        (true, true, false),
    ] {
        assert!(found.contains(&missing), "{missing:?}");
    }
}

/// Each refusal of a text with each that comes after it: 13, NT, N4, the room.
#[test]
fn refusals_come_before_every_later_one() {
    let found: HashSet<(String, bool, bool, bool)> = asked()
        .into_iter()
        .filter(|asked| asked.op == NAVIGATION && asked.payload.len() == 4)
        .filter_map(|asked| {
            let (words, _) = asked.record?;
            let is_wrong_day = !(1..=1461).contains(&words[DAY]);
            let is_wrong_period = !(1..=21).contains(&asked.period?);
            let is_wrong_room = asked.payload[2..] != [1, 64];
            Some((asked.line, is_wrong_day, is_wrong_period, is_wrong_room))
        })
        .collect();
    let has = |line: &str, day, period, room| {
        assert!(
            found.contains(&(String::from(line), day, period, room)),
            "{line}"
        );
    };
    for room in [false, true] {
        for period in [false, true] {
            for day in [false, true] {
                has("no 13", day, period, room);
            }
            has("no 10 26", true, period, room);
        }
        has("no 10 36", false, true, room);
    }
    has("no 17", false, false, true);
}

#[test]
fn texts_have_the_ends_of_every_time() {
    let words = words_of_texts();
    let has = |index: usize, value: i64| words.iter().any(|words| words[index] == value);
    for n in 1..=24 {
        assert!(has(N, n), "n {n}");
    }
    for tb in [1, 11, 12, 13, 94, 95] {
        assert!(has(TB, tb), "tb {tb}");
    }
    for hour in 0..24 {
        assert!(words.iter().any(|words| words[TK] / 128 == hour));
    }
    for tk in [0, 1, 2 * 128 + 119, 3 * 128, 23 * 128 + 119] {
        assert!(has(TK, tk), "tk {tk}");
    }
    for b in 0..8 {
        assert!(has(B, b), "B {b}");
    }
    for e in 0..32 {
        assert!(has(E, e), "E {e}");
    }
    for day in [1, 2, 1460, 1461] {
        assert!(has(DAY, day), "NT {day}");
    }
    for period in [1, 2, 20, 21] {
        assert!(texts().iter().any(|asked| asked.period == Some(period)));
    }
}

/// By the columns of the text.
#[test]
fn texts_have_the_ends_of_every_month_and_of_years() {
    let dates: HashSet<String> = texts()
        .iter()
        .map(|asked| String::from(&asked.line[6..20]))
        .collect();
    let has = |columns: &str| {
        let has_columns = |date: &String| date[3..] == *columns;
        dates.iter().any(has_columns)
    };
    let last_days = [31, 28, 31, 30, 31, 30, 31, 31, 30, 31, 30, 31];
    for (month, last) in (1..).zip(last_days) {
        assert!(has(&format!("{month:2}  1  0  0")), "{month}");
        assert!(has(&format!("{month:2} {last} 23 45")), "{month}");
    }
    assert!(has(" 2 29 23 45"));
    assert!(has(" 2 29  9  0"));
    assert!(dates.contains("95 12 31 21 15"));
    assert!(dates.contains("79 12 31 20 45"));
    assert!(dates.iter().any(|date| date.starts_with("00  2 29")));
}

#[test]
fn texts_have_every_number_at_its_ends() {
    let words = words_of_texts();
    let ends: [i64; 11] = [26, 26, 26, 23, 23, 23, 4, 4, 4, 10, 21].map(|bits| (1 << bits) - 1);
    for ((index, _), end) in NUMBERS.into_iter().zip(ends) {
        for value in [-end, 1 - end, -1, 0, 1, end - 1, end] {
            let has_value = |words: &Vec<i64>| words[index] == value;
            assert!(words.iter().any(has_value), "word {index}: {value}");
        }
    }
}

/// Of fourteen digits that end in 5. The digit before it is even or odd, and both signs come.
#[test]
fn texts_have_ties_of_both_kinds() {
    let mut found = HashSet::new();
    for words in words_of_texts() {
        for (index, binary_places) in NUMBERS {
            let mut digits = u128::from(words[index].unsigned_abs()) * 5_u128.pow(binary_places);
            while digits != 0 && digits % 10 == 0 {
                digits /= 10;
            }
            if digits / 10_u128.pow(13) != 0 && digits / 10_u128.pow(14) == 0 {
                assert_eq!(digits % 10, 5);
                found.insert((index, digits / 10 % 2, words[index] < 0));
            }
        }
    }
    for index in [4, 10, 17, 2, 8, 15, 18] {
        for digit in [0, 1] {
            for is_minus in [false, true] {
                let wanted = (index, digit, is_minus);
                assert!(found.contains(&wanted), "{wanted:?}");
            }
        }
    }
}

#[test]
fn records_are_asked_for_with_their_starts() {
    let mut sites = Sites::default();
    let mut starts = HashSet::new();
    for piece in pieces(&make::trial_input(20260)) {
        let line = answer_piece(&mut sites, piece);
        let Piece::Whole(request) = piece else {
            continue;
        };
        if request
            .asked_by()
            .is_some_and(|(_, asked)| asked.op == IMMEDIATE)
        {
            if let Some(words) = line.strip_prefix("ok ") {
                let words: Vec<&str> = words.split(' ').collect();
                assert_eq!(words.len(), 27);
                starts.insert(words[26].parse::<u32>().unwrap());
            }
        }
    }
    for start in [0, 1000, 1015, 1 << 31, u32::MAX - 14] {
        assert!(starts.contains(&start), "{start}");
    }
}

#[test]
fn texts_are_four_lines_of_79_columns() {
    let found = texts();
    assert!(found.len() > 500);
    for asked in found {
        let lines: Vec<&str> = asked.line[3..].split('|').collect();
        assert_eq!(lines.len(), 4);
        assert!(lines.iter().all(|line| line.len() == 79));
    }
}
