//! `trial`'s requests 21 and 22: the station that is set aside, and its book.

use second::known::received_frame;
use second::relative::to_relative;
use second::request::card::OF_CARDS;
use second::request::{
    ENTRY, FRESH, HEALTH, IMMEDIATE, JOIN, OFFER, OTHER_STATION, SUMMARY, TALLIES,
};
use second::string::NavString;
use second::trial;

#[path = "common/requests.rs"]
mod requests;

use requests::{answers, written, Asked};

const BOOK_OF_FIVE: &str = "ok 5 7409 7409";
const EMPTY_BOOK: &str = "ok 0 0 0";
const NO_OFFER: &str = "ok 0 0 0 0 0 0 0 0 0 0 0 0 0 0";

fn bare(ops: &[u8]) -> Vec<Asked> {
    ops.iter().map(|&op| (op, vec![])).collect()
}

fn offer((string, epoch): (&NavString, u8)) -> Asked {
    let symbols = to_relative(string).unwrap().to_bytes();
    (OFFER, [&[3, 0, 0, 0, epoch], &symbols[..]].concat())
}

/// Slots 16 to 20 on channel 3 of the station in use.
fn received() -> Vec<Asked> {
    received_frame().iter().zip(100..).map(offer).collect()
}

/// The answers to what comes after the received frame.
fn answers_after_the_frame(requests: &[Asked]) -> Vec<String> {
    answers(&[received(), requests.to_vec()].concat())[15..].to_vec()
}

#[test]
fn the_two_stations_change_places() {
    let requests = bare(&[
        SUMMARY,
        OTHER_STATION,
        SUMMARY,
        OTHER_STATION,
        SUMMARY,
        OTHER_STATION,
    ]);
    let lines = [BOOK_OF_FIVE, "ok", EMPTY_BOOK, "ok", BOOK_OF_FIVE, "ok"];
    assert_eq!(answers_after_the_frame(&requests), lines);
}

#[test]
fn a_fresh_station_is_the_one_in_use_alone() {
    let requests = bare(&[
        OTHER_STATION,
        FRESH,
        OTHER_STATION,
        SUMMARY,
        FRESH,
        SUMMARY,
        OTHER_STATION,
        SUMMARY,
    ]);
    let lines = [
        "ok",
        "ok",
        "ok",
        BOOK_OF_FIVE,
        "ok",
        EMPTY_BOOK,
        "ok",
        EMPTY_BOOK,
    ];
    assert_eq!(answers_after_the_frame(&requests), lines);
}

/// Into the empty one: it prints the summary that it then has.
#[test]
fn a_join_prints_the_summary_of_the_one_in_use() {
    let requests = bare(&[JOIN, OTHER_STATION, SUMMARY, JOIN, SUMMARY, JOIN]);
    let lines = [
        BOOK_OF_FIVE,
        "ok",
        EMPTY_BOOK,
        BOOK_OF_FIVE,
        BOOK_OF_FIVE,
        BOOK_OF_FIVE,
    ];
    assert_eq!(answers_after_the_frame(&requests), lines);
    assert_eq!(answers(&bare(&[JOIN])), [EMPTY_BOOK]);
}

/// The received frame tells of satellite 11, whose entry is not there.
#[test]
fn a_join_leaves_the_rows_and_the_one_set_aside() {
    let own = [
        (ENTRY, vec![16]),
        (IMMEDIATE, vec![3]),
        (TALLIES, vec![3]),
        (HEALTH, vec![3]),
    ];
    let before = answers_after_the_frame(&own);
    let joined = [bare(&[OTHER_STATION, JOIN]), own.to_vec()].concat();
    let lines = answers_after_the_frame(&joined);
    assert_eq!(lines[2..], [&before[0], "no 13", NO_OFFER, "ok 0"]);
    let requests = [&joined[..], &bare(&[OTHER_STATION]), &own].concat();
    assert_eq!(answers_after_the_frame(&requests)[7..], before);
}

#[test]
fn a_payload_is_bad_and_does_nothing() {
    for op in [OTHER_STATION, JOIN] {
        for payload in [vec![0], vec![1], vec![1, 0], vec![0; 256]] {
            let requests = [
                (OTHER_STATION, vec![]),
                (op, payload),
                (SUMMARY, vec![]),
                (OTHER_STATION, vec![]),
                (SUMMARY, vec![]),
            ];
            let bad = format!("bad {op}");
            let lines = ["ok", &bad, EMPTY_BOOK, "ok", BOOK_OF_FIVE];
            assert_eq!(answers_after_the_frame(&requests), lines);
        }
    }
}

#[test]
fn they_are_21_and_22_and_no_card_makes_them() {
    assert_eq!([OTHER_STATION, JOIN], [21, 22]);
    for op in [OTHER_STATION, JOIN] {
        assert!(!OF_CARDS.contains(&op));
        for payload in [vec![], vec![1], vec![2], vec![1, 0]] {
            let requests = [
                (OTHER_STATION, vec![]),
                (op + 32, payload),
                (SUMMARY, vec![]),
            ];
            let lines = answers_after_the_frame(&requests);
            assert_eq!(
                lines[1..],
                [format!("bad {}", op + 32).as_str(), EMPTY_BOOK]
            );
        }
    }
}

/// A join moves no tally of either.
#[test]
fn near_the_limit_the_one_set_aside_is_fresh() {
    let tallies = (TALLIES, vec![0]);
    let requests = [
        tallies.clone(),
        (OTHER_STATION, vec![]),
        tallies.clone(),
        (JOIN, vec![]),
        (OTHER_STATION, vec![]),
        tallies.clone(),
        (JOIN, vec![]),
        tallies,
    ];
    let near = format!("ok{}", " 4294967293".repeat(14));
    let lines = trial::answer_input_near_the_limit(&written(&requests));
    let lines: Vec<&str> = lines.lines().collect();
    let expected = [
        &near, "ok", NO_OFFER, EMPTY_BOOK, "ok", &near, EMPTY_BOOK, &near,
    ];
    assert_eq!(lines, expected);
}
