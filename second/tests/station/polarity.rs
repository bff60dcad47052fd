//! "Station contents, order of checks and the read bits do not depend on it": histories
//! offered twice, with strings inverted the second time.

use std::collections::HashSet;

use second::hamming::Verdict;
use second::random::SplitMix64;
use second::refusal::Refusal;
use second::relative::{to_relative, Polarity};
use second::station::card::ONE;
use second::station::row::{News, Taken};
use second::station::Station;
use second::string::NavString;

use crate::calls::{history, Answer};
use crate::strings::*;

const HISTORIES: u64 = 200;

/// An answer without its polarity, and the polarity of a taken string.
fn without_polarity(answer: Answer) -> (Answer, Option<Polarity>) {
    match answer {
        Ok(Some(taken)) => {
            let polarity = Polarity::Upright;
            let told = Some(taken.polarity);
            (Ok(Some(Taken { polarity, ..taken })), told)
        }
        other => (other, None),
    }
}

fn number_and_news(answer: Answer) -> (u8, Option<News>) {
    match answer {
        Ok(taken) => (0, taken.map(|taken| taken.news)),
        Err(refusal) => (refusal.number(), None),
    }
}

/// After each call the two stations are equal, and its two answers are equal but for
/// the polarity, which differs where the string was inverted and only there.
#[test]
fn histories_with_strings_inverted_leave_the_same_stations() {
    let mut random = SplitMix64::new(13);
    let mut seen = HashSet::new();
    for seed in 0..HISTORIES {
        let (mut first, mut second) = (Station::default(), Station::default());
        for (index, call) in history(seed).iter().enumerate() {
            let is_inverted = random.below(2) == 1;
            let again = match is_inverted {
                true => call.inverted(),
                false => call.clone(),
            };
            let answer = call.answer(&mut first);
            let (told, polarity) = without_polarity(answer);
            let (told_again, other) = without_polarity(again.answer(&mut second));
            assert_eq!(told, told_again, "history {seed}, call {index}");
            let differs = polarity != other;
            assert_eq!(differs, is_inverted && polarity.is_some());
            assert_eq!(first, second, "history {seed}, call {index}");
            let (number, news) = number_and_news(answer);
            seen.insert((number, news.map(|news| format!("{news:?}")), is_inverted));
        }
    }
    require_all_kinds(&seen);
}

/// Every refusal of an offer, every news and resets were in it, both as they were and
/// inverted.
fn require_all_kinds(seen: &HashSet<(u8, Option<String>, bool)>) {
    let has = |number: u8, news: Option<&str>| {
        let news = news.map(String::from);
        [false, true].map(|inverted| seen.contains(&(number, news.clone(), inverted)))
    };
    for number in [0, 1, 2, 31, 32, 33].into_iter().chain(4..=9) {
        assert_eq!(has(number, None), [true, true], "{number}");
    }
    for news in ["AlreadyHeld", "Kept", "RecordBuilt", "RecordOutOfRange"] {
        assert_eq!(has(0, Some(news)), [true, true], "{news}");
    }
}

/// The answer to string 1 at 1000, upright and inverted, after these strings upright.
fn answers_in_both(before: &[NavString], string: &NavString) -> [Result<Taken, Refusal>; 2] {
    let symbols = to_relative(string).unwrap();
    [symbols, symbols.inverted()].map(|symbols| {
        let mut station = Station::default();
        take_all(&mut station, 0, 1000, before);
        station.offer(ONE, 0, 1000, &symbols.to_bytes())
    })
}

#[test]
fn a_taken_string_tells_its_polarity() {
    for (before, news) in [
        (&[][..], News::Kept),
        (&[string_1(7)], News::AlreadyHeld),
        (&strings_1_to_4(0, 1)[1..], News::RecordBuilt),
    ] {
        let taken = |polarity| {
            Ok(Taken {
                m: 1,
                verdict: Verdict::Clean,
                news,
                polarity,
            })
        };
        let expected = [taken(Polarity::Upright), taken(Polarity::Inverted)];
        assert_eq!(answers_in_both(before, &string_1(7)), expected);
    }
}

/// Every bit that is on the line but bit 8, which is 31 in both polarities.
#[test]
fn an_inverted_string_with_one_bit_wrong_is_repaired_at_the_same_bit() {
    for bit in (1..85).filter(|&bit| bit != 8) {
        let taken = |polarity| {
            Ok(Taken {
                m: 1,
                verdict: Verdict::Repaired { bit },
                news: News::AlreadyHeld,
                polarity,
            })
        };
        let expected = [taken(Polarity::Upright), taken(Polarity::Inverted)];
        let answers = answers_in_both(&[string_1(7)], &string_1(7).flipped(&[bit]));
        assert_eq!(answers, expected, "bit {bit}");
    }
    let answers = answers_in_both(&[string_1(7)], &string_1(7).flipped(&[8]));
    let numbers = answers.map(|answer| answer.map_err(Refusal::number));
    assert_eq!(numbers, [Err(31), Err(31)]);
}
