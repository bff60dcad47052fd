//! "Two books from separate fresh stations join to the book of one station with enough channels
//! that was given both histories, each channel of each site on a channel of its own."

use std::collections::HashSet;

use second::random::SplitMix64;
use second::station::card::{ONE, TWO};
use second::station::Station;

use crate::calls::Call;
use crate::sites::*;
use crate::two_cards::{on_the_other_card, CardCall};

const HISTORIES: u64 = 60;

/// The ways in which the calls of two are mixed; each keeps its own order.
#[derive(Clone, Copy)]
enum Mixing {
    FirstThenSecond,
    SecondThenFirst,
    InTurn,
    InRuns,
    AnyHow,
}

const MIXINGS: [Mixing; 5] = [
    Mixing::FirstThenSecond,
    Mixing::SecondThenFirst,
    Mixing::InTurn,
    Mixing::InRuns,
    Mixing::AnyHow,
];

/// How many calls of which of the two come next, in the round of this number.
fn next(random: &mut SplitMix64, mixing: Mixing, round: usize) -> (usize, usize) {
    match mixing {
        Mixing::FirstThenSecond => (round % 2, usize::MAX),
        Mixing::SecondThenFirst => (1 - round % 2, usize::MAX),
        Mixing::InTurn => (round % 2, 1),
        Mixing::InRuns => (round % 2, 1 + random.below(30)),
        Mixing::AnyHow => (random.below(2), 1),
    }
}

fn mixed(random: &mut SplitMix64, mixing: Mixing, calls: &[Vec<CardCall>; 2]) -> Vec<CardCall> {
    let mut rests = calls.each_ref().map(|calls| &calls[..]);
    let mut all = Vec::new();
    for round in 0.. {
        if rests.iter().all(|rest| rest.is_empty()) {
            break;
        }
        let (site, count) = next(random, mixing, round);
        let (now, later) = rests[site].split_at(count.min(rests[site].len()));
        all.extend_from_slice(now);
        rests[site] = later;
    }
    all
}

fn by(card: u8, calls: &[Call]) -> Vec<CardCall> {
    let by_card = |call: &Call| CardCall {
        card,
        call: call.clone(),
    };
    calls.iter().map(by_card).collect()
}

/// Channels 0, 1, 11 and 22 are 12, 13, 14 and 15; those that are no channel of a card stay.
fn on_other_channels(call: &Call) -> Call {
    let mut call = call.clone();
    let (Call::Offer { channel, .. } | Call::Reset { channel }) = &mut call;
    *channel = match *channel {
        0 => 12,
        1 => 13,
        11 => 14,
        22 => 15,
        none => none,
    };
    call
}

fn told(calls: &[CardCall]) -> Station {
    let mut station = Station::default();
    for call in calls {
        let _ = call.answer(&mut station);
    }
    station
}

/// Over every mixing; each of the two books has something that the other has not.
fn require_the_joined_book(second_in_one: fn(&[Call]) -> Vec<CardCall>) {
    let mut random = SplitMix64::new(53);
    let mut is_new = HashSet::new();
    for seed in 0..HISTORIES {
        let [first, second] = histories_of::<2>(seed);
        let sites = [&first, &second].map(|calls| station_told(calls));
        let book = book_of(&joined(&sites[0], &sites[1]));
        is_new.insert(sites.each_ref().map(|site| book_of(site) != book));
        let calls = [by(ONE, &first), second_in_one(&second)];
        for mixing in MIXINGS {
            let station = told(&mixed(&mut random, mixing, &calls));
            assert_eq!(book_of(&station), book, "history {seed}");
            let summary = joined(&sites[0], &sites[1]).summary(ONE);
            assert_eq!(station.summary(TWO), summary, "history {seed}");
        }
    }
    assert!(is_new.contains(&[true, true]));
}

#[test]
fn the_two_cards_of_one_station_have_the_joined_book() {
    require_the_joined_book(|calls| {
        let calls: Vec<Call> = calls.iter().map(on_the_other_card).collect();
        by(TWO, &calls)
    });
}

#[test]
fn other_channels_of_one_card_have_the_joined_book() {
    require_the_joined_book(|calls| {
        let calls: Vec<Call> = calls.iter().map(on_other_channels).collect();
        by(ONE, &calls)
    });
}

/// Channels of their own: on the same ones the histories would get into each other's frames.
#[test]
fn on_the_same_channels_the_book_is_another() {
    let mut random = SplitMix64::new(59);
    let is_another = (0..HISTORIES).any(|seed| {
        let [first, second] = [seed, seed + HISTORIES].map(histories_of::<1>);
        let sites = [&first, &second].map(|[calls]| station_told(calls));
        let calls = [&first, &second].map(|[calls]| by(ONE, calls));
        let station = told(&mixed(&mut random, Mixing::AnyHow, &calls));
        book_of(&station) != book_of(&joined(&sites[0], &sites[1]))
    });
    assert!(is_another);
}

/// The rows are those of the sites, each asked by its card, and the answers, too.
#[test]
fn the_rows_of_the_two_cards_are_those_of_the_two_sites() {
    let mut random = SplitMix64::new(61);
    for seed in 0..HISTORIES {
        let [first, second] = histories_of::<2>(seed);
        let sites = [&first, &second].map(|calls| station_told(calls));
        let moved: Vec<Call> = second.iter().map(on_the_other_card).collect();
        let calls = [by(ONE, &first), by(TWO, &moved)];
        let station = told(&mixed(&mut random, Mixing::AnyHow, &calls));
        for channel in 0..24 {
            let own = station.tallies(ONE, channel);
            assert_eq!(own, sites[0].tallies(ONE, channel));
            let others = station.tallies(TWO, channel + 24);
            assert_eq!(others, sites[1].tallies(ONE, channel));
            let record = station.immediate(TWO, channel + 24);
            assert_eq!(record, sites[1].immediate(ONE, channel));
        }
    }
}
