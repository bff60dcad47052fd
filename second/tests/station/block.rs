//! "Handing a block to any station gives the same station and answers as its calls one by
//! one, in the order written."

use std::collections::HashSet;

use second::block::{self, hand_over, HandedOver};
use second::random::SplitMix64;
use second::refusal::{FieldTrouble, Refusal};
use second::station::card::ONE;
use second::station::Station;

use crate::calls::{field, history, Answer, Call};
use crate::strings::*;

const HISTORIES: u64 = 100;
const LONGEST: usize = 40;

fn has_a_field(call: &Call) -> bool {
    call.field().is_some()
}

fn answers_of(handed_over: &HandedOver) -> Vec<Answer> {
    let answers = handed_over.answers.iter();
    answers
        .map(|answer| match *answer {
            block::Answer::Offer(answer) => answer.map(Some),
            block::Answer::Reset(answer) => answer.map(|()| None),
        })
        .collect()
}

fn one_by_one(station: &mut Station, calls: &[Call]) -> Vec<Answer> {
    calls.iter().map(|call| call.answer(station)).collect()
}

/// The calls as a block, with a remark before one in four.
fn block_with_remarks(random: &mut SplitMix64, calls: &[Call]) -> Vec<u8> {
    let mut block = Vec::new();
    for call in calls {
        if random.below(4) == 0 {
            let length = random.below(300);
            block.extend(field(3, &random.bytes(length)));
        }
        block.extend(call.field().unwrap());
    }
    block
}

/// A field that is refused wherever it stands, and what is told of it.
fn refused_field(random: &mut SplitMix64) -> (Vec<u8>, FieldTrouble) {
    match random.below(3) {
        0 => (field(4, &[1]), FieldTrouble::UnknownTag),
        1 => (field(2, &[1, 1]), FieldTrouble::WrongLength),
        _ => (vec![3, 0xFF, 0xFF], FieldTrouble::EndsInside),
    }
}

/// Blocks of some length, one after another, to a station that has had the ones before.
/// After each the stations are equal, and so are the answers.
#[test]
fn a_block_is_its_calls_one_by_one_on_stations_that_are_not_fresh() {
    let mut random = SplitMix64::new(17);
    let mut seen = HashSet::new();
    for seed in 0..HISTORIES {
        let (mut first, mut second) = (Station::default(), Station::default());
        let mut calls: Vec<Call> = history(seed).into_iter().filter(has_a_field).collect();
        while !calls.is_empty() {
            let count = calls.len().min(random.below(LONGEST));
            let some: Vec<Call> = calls.drain(..count).collect();
            let block = block_with_remarks(&mut random, &some);
            let handed_over = hand_over(&mut first, ONE, &block);
            let answers = one_by_one(&mut second, &some);
            assert_eq!(answers_of(&handed_over), answers, "history {seed}");
            assert_eq!(handed_over.end, Ok(()));
            assert_eq!(first, second, "history {seed}");
            seen.extend(answers.iter().map(number));
        }
    }
    let every_number = [0, 1, 15, 2, 31, 32, 33].into_iter().chain(4..=9);
    assert_eq!(seen, every_number.collect());
}

fn number(answer: &Answer) -> u8 {
    answer.map_or_else(Refusal::number, |_| 0)
}

/// "The work stops there, keeps what went before and tells the byte place of the field."
#[test]
fn what_stands_behind_a_refused_field_has_no_effect() {
    let mut random = SplitMix64::new(19);
    for seed in 0..HISTORIES {
        let calls: Vec<Call> = history(seed).into_iter().filter(has_a_field).collect();
        let (before, calls) = calls.split_at(calls.len() / 2);
        let (reached, after) = calls.split_at(random.below(LONGEST));
        let mut station = Station::default();
        one_by_one(&mut station, before);
        let good = block_with_remarks(&mut random, reached);
        let (refused, trouble) = refused_field(&mut random);
        let rest = block_with_remarks(&mut random, after);
        let mut first = station.clone();
        let handed_over = hand_over(&mut first, ONE, &[&good[..], &refused, &rest].concat());
        let answers = one_by_one(&mut station, reached);
        assert_eq!(answers_of(&handed_over), answers);
        let place = good.len();
        assert_eq!(handed_over.end, Err(Refusal::Field { trouble, place }));
        assert_eq!(first, station, "history {seed}");
    }
}

/// Blocks have no header of their own: end to end they are one.
#[test]
fn blocks_end_to_end_are_the_blocks_one_after_another() {
    let mut random = SplitMix64::new(23);
    for seed in 0..HISTORIES {
        let calls: Vec<Call> = history(seed).into_iter().filter(has_a_field).collect();
        let (one, other) = calls.split_at(random.below(calls.len()));
        let blocks = [one, other].map(|calls| block_with_remarks(&mut random, calls));
        let (mut first, mut second) = (Station::default(), Station::default());
        let handed_over = hand_over(&mut first, ONE, &blocks.concat());
        let both = blocks.map(|block| answers_of(&hand_over(&mut second, ONE, &block)));
        assert_eq!(answers_of(&handed_over), both.concat());
        assert_eq!(first, second);
    }
}

#[test]
fn an_empty_block_and_remarks_leave_the_station_as_it_was() {
    let station = station_with_received_frame(3);
    let remarks = [0, 1, 255, 256, 60_000, 65_535].map(|length| field(3, &vec![2; length]));
    for block in [Vec::new(), remarks.concat()] {
        let mut other = station.clone();
        let handed_over = hand_over(&mut other, ONE, &block);
        assert_eq!((handed_over.answers.len(), handed_over.end), (0, Ok(())));
        assert_eq!(other, station);
    }
}

/// A channel of the other card or above 47 is an offer's and a reset's own refusal.
#[test]
fn a_refused_call_stops_nothing() {
    let mut station = station_with_received_frame(3);
    let calls: Vec<Vec<u8>> = (24..=255).map(|channel| field(2, &[channel])).collect();
    let block = [calls.concat(), field(2, &[3])].concat();
    let handed_over = hand_over(&mut station, ONE, &block);
    let owner = vec![Err(Refusal::Owner); 24];
    let channel = vec![Err(Refusal::Channel); 208];
    let expected = [owner, channel, vec![Ok(None)]].concat();
    assert_eq!(answers_of(&handed_over), expected);
    assert_eq!(station.immediate(ONE, 3), Err(Refusal::Nothing));
}
