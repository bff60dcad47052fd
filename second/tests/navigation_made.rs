//! The capture that is made for the navigation file: what is in it, and the file by `trial`'s
//! own requests. The seed is that of the stored input.

use std::collections::{HashMap, HashSet};

use second::listing::Record;
use second::make;
use second::navigation::file::answer_stream;
use second::navigation::Navigation;
use second::refusal::Refusal;
use second::request::{append, FIVE_OF, IMMEDIATE, NAVIGATION, OFFER};
use second::station::card::{ONE, TWO};
use second::station::row::News;
use second::station::Station;
use second::trial;

const SEED: u64 = 20260;
const HEADER_BYTES: usize = 243;

fn records() -> Vec<Record> {
    let bytes = make::navigation_input(SEED);
    let (records, _) = bytes.as_chunks();
    records.iter().map(Record::from_bytes).collect()
}

fn file_of(card: u8) -> String {
    let mut output = Vec::new();
    let input = make::navigation_input(SEED);
    answer_stream(card, &input[..], &mut output).unwrap();
    String::from_utf8(output).unwrap()
}

/// The first columns of each record.
fn epochs(card: u8) -> Vec<String> {
    let file = file_of(card);
    let lines: Vec<&str> = file[HEADER_BYTES..].lines().collect();
    let firsts = lines.iter().step_by(4);
    firsts.map(|line| String::from(&line[..17])).collect()
}

#[test]
fn the_capture_follows_from_its_seed() {
    let capture = make::navigation_input(SEED);
    assert_eq!(capture, make::navigation_input(SEED));
    assert_ne!(capture, make::navigation_input(SEED + 1));
    assert!((500..2000).contains(&(capture.len() / 16)));
    assert_ne!(capture.len() % 16, 0);
}

/// For each question the text, N4, NT and tb: requests 18, 24 and 40 before each offer.
fn requests_of(card: u8) -> Vec<u8> {
    let mut input = Vec::new();
    let ask = |channel: u8, input: &mut Vec<u8>| {
        append(input, NAVIGATION, &[card, channel, 1, 64]);
        append(input, FIVE_OF, &[card, channel]);
        append(input, IMMEDIATE + 32, &[card, channel]);
    };
    for record in records() {
        ask(record.channel, &mut input);
        let offer = [&[card], &record.to_bytes()[..]].concat();
        append(&mut input, OFFER + 32, &offer);
    }
    for channel in 24 * (card - 1)..24 * card {
        ask(channel, &mut input);
        append(&mut input, OFFER + 32, &[]);
    }
    input
}

/// "Another than the one last written for that n", told by the words that the requests print.
#[test]
fn files_are_what_the_requests_tell() {
    for card in [ONE, TWO] {
        let lines = trial::answer_input(&requests_of(card));
        let lines: Vec<&str> = lines.lines().collect();
        let mut last: HashMap<&str, [&str; 3]> = HashMap::new();
        let mut expected = String::from(&file_of(card)[..HEADER_BYTES]);
        for asked in lines.chunks(4) {
            let Some(text) = asked[0].strip_prefix("ok ") else {
                continue;
            };
            let string_5: Vec<&str> = asked[1].split(' ').collect();
            let words: Vec<&str> = asked[2].split(' ').collect();
            let epoch = [string_5[3], words[24], words[8]];
            if last.insert(words[25], epoch) != Some(epoch) {
                expected += &text.replace('|', "\n");
                expected += "\n";
            }
        }
        assert_eq!(file_of(card), expected);
    }
}

#[test]
fn every_channel_of_a_kind_is_there() {
    let channels: HashSet<u8> = records().iter().map(|record| record.channel).collect();
    for range in [0..24, 24..48, 48..256] {
        let count = channels
            .iter()
            .filter(|&&channel| range.contains(&u16::from(channel)));
        assert!(count.count() > 2, "{range:?}");
    }
}

/// On one card, over midnight in Moscow, over a change of tb and over new year.
#[test]
fn files_pass_midnight_and_new_year() {
    for (card, n) in [(ONE, 1), (ONE, 7), (ONE, 12), (TWO, 1), (TWO, 11)] {
        let found: Vec<String> = epochs(card);
        for time in [
            "19 12 31 20 30",
            "19 12 31 20 45",
            "19 12 31 21 15",
            "19 12 31 23 45",
            "20  1  1  0  0",
            "20  1  1  0 15",
        ] {
            let wanted = format!("{n:2} {time}");
            assert!(found.contains(&wanted), "card {card}: {wanted}");
        }
    }
    assert!(epochs(ONE).len() > 40);
    assert!(epochs(TWO).len() > 10);
}

/// Two channels follow one satellite: an epoch comes again after another one.
#[test]
fn an_epoch_is_written_again_after_another() {
    let found = epochs(ONE);
    let again = |wanted: &str| found.iter().filter(|epoch| *epoch == wanted).count();
    assert_eq!(again(" 1 19 12 31 21 15"), 3);
    assert_eq!(again(" 7 19 12 31 21 15"), 1);
}

/// What befalls the strings, and why no text is to be had where one is asked for.
#[test]
fn the_capture_has_every_answer_for_either_card() {
    for card in [ONE, TWO] {
        let mut station = Station::default();
        let (mut answers, mut texts) = (HashSet::new(), HashSet::new());
        for record in records() {
            let channel = usize::from(record.channel);
            let text = Navigation::of(&station, card, channel);
            texts.insert(text.map_or_else(|refusal| refusal.to_string(), |_| String::from("ok")));
            let answer = station.offer(card, channel, record.epoch, &record.symbols);
            answers.insert(match answer {
                Ok(taken) if taken.news == News::RecordOutOfRange => 100,
                Ok(taken) if taken.verdict.repaired_bit() != 0 => 101,
                Ok(_) => 0,
                Err(refusal) => Refusal::number(refusal),
            });
        }
        for text in ["ok", "no 1", "no 15", "no 13"] {
            assert!(texts.contains(text), "card {card}: {text}");
        }
        for answer in [0, 1, 15, 32, 7, 8, 9, 101] {
            assert!(answers.contains(&answer), "card {card}: {answer}");
        }
        if card == ONE {
            for text in ["no 10 26", "no 10 36"] {
                assert!(texts.contains(text), "{text}");
            }
            for answer in [100, 5, 6] {
                assert!(answers.contains(&answer), "{answer}");
            }
        }
    }
}

/// A record that is held while its string 5 is not, or not any more, or while its n has no
/// entry.
#[test]
fn records_lack_string_5_or_their_entry() {
    let mut station = Station::default();
    let mut found = HashSet::new();
    for record in records() {
        let channel = usize::from(record.channel);
        if let Ok(held) = station.immediate(ONE, channel) {
            let has_string_5 = station.five_of(ONE, channel).is_ok();
            let has_entry = station.entry(ONE, held.satellite).is_ok();
            found.insert((has_string_5, has_entry));
        }
        let _ = station.offer(ONE, channel, record.epoch, &record.symbols);
    }
    for wanted in [(true, true), (true, false), (false, true), (false, false)] {
        assert!(found.contains(&wanted), "{wanted:?}");
    }
}
