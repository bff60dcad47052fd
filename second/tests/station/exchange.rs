//! The third demand, over made records and over the calls of two cards: the order between
//! channels does not matter, and each slot holds the greatest entry shown.

use std::collections::HashMap;

use second::listing::Record;
use second::make;
use second::random::SplitMix64;
use second::refusal::Refusal;
use second::station::card::{ONE, TWO};
use second::station::row::Taken;
use second::station::Station;

use crate::two_cards::{two_histories, CardCall};

type Answer = Result<Taken, Refusal>;

fn made_records(seed: u64, count: u64) -> Vec<Record> {
    let mut bytes = Vec::new();
    make::write_listing(seed, count, &mut bytes).unwrap();
    let (records, _) = bytes.as_chunks();
    records.iter().map(Record::from_bytes).collect()
}

fn answer(station: &mut Station, record: &Record) -> Answer {
    station.offer(
        ONE,
        usize::from(record.channel),
        record.epoch,
        &record.symbols,
    )
}

/// The answers, each with its record's place in the original order.
fn run(records: &[(usize, Record)]) -> (HashMap<usize, Answer>, Station) {
    let mut station = Station::default();
    let answers = records
        .iter()
        .map(|(index, record)| (*index, answer(&mut station, record)))
        .collect();
    (answers, station)
}

#[test]
fn neighbouring_calls_on_different_channels_may_change_places() {
    let mut random = SplitMix64::new(11);
    let records: Vec<(usize, Record)> = made_records(5, 6000).into_iter().enumerate().collect();
    let mut exchanged = records.clone();
    for _ in 0..30_000 {
        let first = random.below(exchanged.len() - 1);
        if exchanged[first].1.channel != exchanged[first + 1].1.channel {
            exchanged.swap(first, first + 1);
        }
    }
    assert_ne!(records, exchanged);
    assert_eq!(run(&records), run(&exchanged));
}

/// "Any two different channels of the 48", of one card or of two, calls that are shut out
/// among them.
#[test]
fn calls_of_two_cards_on_different_channels_may_change_places() {
    let mut random = SplitMix64::new(13);
    for seed in 0..20 {
        let calls: Vec<(usize, CardCall)> = two_histories(seed).into_iter().enumerate().collect();
        let mut exchanged = calls.clone();
        for _ in 0..20 * calls.len() {
            let first = random.below(exchanged.len() - 1);
            let [one, next] = [0, 1].map(|index| &exchanged[first + index].1.call);
            if one.channel() != next.channel() {
                exchanged.swap(first, first + 1);
            }
        }
        let answers = |calls: &[(usize, CardCall)]| {
            let mut station = Station::default();
            let answers = calls
                .iter()
                .map(|(index, call)| (*index, call.answer(&mut station)));
            let answers: HashMap<usize, _> = answers.collect();
            (answers, station)
        };
        assert_eq!(answers(&calls), answers(&exchanged), "history {seed}");
    }
}

/// Of whichever card: a station of its own for each channel, the book is the greatest of
/// theirs.
#[test]
fn a_slot_holds_the_greatest_entry_that_a_channel_of_either_card_has_shown() {
    for seed in 0..20 {
        let mut shared = Station::default();
        let mut alone = vec![Station::default(); 256];
        for call in two_histories(seed) {
            let own = &mut alone[usize::from(call.call.channel())];
            assert_eq!(call.answer(&mut shared), call.answer(own));
        }
        for slot in 1..=24 {
            let entries = alone
                .iter()
                .filter_map(|station| station.entry(ONE, slot).ok());
            let greatest = entries.max();
            assert_eq!(shared.entry(ONE, slot).ok(), greatest);
            assert_eq!(shared.entry(TWO, slot).ok(), greatest);
        }
    }
}

/// A station of its own for each channel; the shared book is the greatest of theirs.
#[test]
fn a_slot_holds_the_greatest_entry_that_any_channel_has_shown() {
    let records = made_records(6, 20_000);
    let mut shared = Station::default();
    let mut alone = vec![Station::default(); 24];
    for record in records.iter().filter(|record| record.channel < 24) {
        let own = &mut alone[usize::from(record.channel)];
        assert_eq!(answer(&mut shared, record), answer(own, record));
    }
    for slot in 1..=24 {
        let greatest = alone
            .iter()
            .filter_map(|station| station.entry(ONE, slot).ok())
            .max();
        assert_eq!(shared.entry(ONE, slot).ok(), greatest);
        assert!(greatest.is_some());
    }
}
