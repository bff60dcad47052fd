//! "Whatever one card offers or resets, the other's row answers, refusals, records and
//! tallies are the same": each history with and without the calls of the others.

use std::collections::HashSet;

use second::block::{hand_over, HandedOver};
use second::random::SplitMix64;
use second::refusal::Refusal;
use second::station::card::{ONE, TWO};
use second::station::record::ImmediateRecord;
use second::station::tallies::Tallies;
use second::station::Station;

use crate::calls::{field, Answer};
use crate::two_cards::{made_by, two_histories, CardCall};

const HISTORIES: u64 = 40;
const LONGEST: usize = 30;

/// What a card is told of each channel number that there can be.
type Rows = Vec<(Result<ImmediateRecord, Refusal>, Result<Tallies, Refusal>)>;

fn rows(station: &Station, card: u8) -> Rows {
    let told = |channel| {
        let record = station.immediate(card, channel).cloned();
        (record, station.tallies(card, channel))
    };
    (0..256).map(told).collect()
}

/// The answers to this card's calls, among all of these.
fn answers_to(card: u8, station: &mut Station, calls: &[CardCall]) -> Vec<Answer> {
    let mut answers = Vec::new();
    for call in calls {
        let answer = call.answer(station);
        if call.card == card {
            answers.push(answer);
        }
    }
    answers
}

#[test]
fn a_card_is_answered_as_if_it_were_alone() {
    let mut seen = HashSet::new();
    for seed in 0..HISTORIES {
        let calls = two_histories(seed);
        for card in [ONE, TWO] {
            let (mut both, mut alone) = (Station::default(), Station::default());
            let answers = answers_to(card, &mut both, &calls);
            let own = made_by(card, &calls);
            assert_eq!(answers, answers_to(card, &mut alone, &own), "{seed}");
            assert_eq!(rows(&both, card), rows(&alone, card), "{seed}");
            let numbers = answers.iter().map(number);
            seen.extend(numbers.map(|number| (card, number)));
        }
    }
    for card in [ONE, TWO] {
        for number in [0, 1, 15, 2, 31, 32, 33].into_iter().chain(4..=9) {
            assert!(seen.contains(&(card, number)), "card {card}: {number}");
        }
    }
}

fn number(answer: &Answer) -> u8 {
    answer.map_or_else(Refusal::number, |_| 0)
}

/// After each call, of whichever card: both cards' rows are those of stations that have had
/// this card's calls alone.
#[test]
fn the_rows_are_the_same_at_all_times() {
    for seed in 0..3 {
        let mut both = Station::default();
        let mut alone = [ONE, TWO].map(|card| (card, Station::default()));
        for (index, call) in two_histories(seed).iter().enumerate().take(150) {
            let answer = call.answer(&mut both);
            for (card, station) in &mut alone {
                if *card == call.card {
                    assert_eq!(call.answer(station), answer, "{seed}, call {index}");
                }
                let told = rows(&both, *card);
                assert_eq!(told, rows(station, *card), "{seed}, call {index}");
            }
        }
    }
}

/// Two stations in which the other card has had histories of its own: they agree for this
/// card, and go on to do so.
#[test]
fn what_the_other_card_has_done_before_makes_no_difference() {
    for seed in 0..HISTORIES {
        for (card, other) in [(ONE, TWO), (TWO, ONE)] {
            let before = made_by(other, &two_histories(seed + HISTORIES));
            let calls = two_histories(seed);
            let (mut first, mut second) = (Station::default(), Station::default());
            answers_to(card, &mut first, &before);
            assert_eq!(rows(&first, card), rows(&second, card));
            let answers = answers_to(card, &mut first, &calls);
            assert_eq!(answers, answers_to(card, &mut second, &calls), "{seed}");
            assert_eq!(rows(&first, card), rows(&second, card), "{seed}");
        }
    }
}

/// Blocks of each card in turn, and of cards that there are not.
fn two_histories_in_blocks(seed: u64) -> Vec<(u8, Vec<u8>)> {
    let mut random = SplitMix64::new(seed);
    let calls = two_histories(seed);
    let mut blocks = Vec::new();
    let mut rest = &calls[..];
    while !rest.is_empty() {
        let (some, behind) = rest.split_at(rest.len().min(1 + random.below(LONGEST)));
        for card in [ONE, 0, TWO, 3, 255] {
            let own = made_by(card, some);
            let fields = own.iter().filter_map(|call| call.call.field());
            let mut block: Vec<u8> = fields.flatten().collect();
            if random.below(8) == 0 {
                block.extend(field(4, &[]));
            }
            blocks.push((card, block));
        }
        rest = behind;
    }
    blocks
}

#[test]
fn a_cards_blocks_are_answered_as_if_it_were_alone() {
    for seed in 0..HISTORIES {
        let blocks = two_histories_in_blocks(seed);
        let mut both = Station::default();
        let handed_over: Vec<(u8, HandedOver)> = blocks
            .iter()
            .map(|(card, block)| (*card, hand_over(&mut both, *card, block)))
            .collect();
        for card in [ONE, TWO] {
            let mut alone = Station::default();
            let own = blocks.iter().filter(|(by, _)| *by == card);
            let expected = own.map(|(_, block)| hand_over(&mut alone, card, block));
            let answers = handed_over.iter().filter(|(by, _)| *by == card);
            assert!(answers
                .map(|(_, answer)| answer)
                .eq(&expected.collect::<Vec<_>>()));
            assert_eq!(rows(&both, card), rows(&alone, card), "{seed}");
        }
    }
}

/// What is shared does differ: nothing above is the same for want of other calls.
#[test]
fn the_book_and_health_differ_with_and_without_the_other_card() {
    for card in [ONE, TWO] {
        let (mut entries, mut summaries, mut healths) = (0, 0, 0);
        for seed in 0..HISTORIES {
            let calls = two_histories(seed);
            let (mut both, mut alone) = (Station::default(), Station::default());
            answers_to(card, &mut both, &calls);
            answers_to(card, &mut alone, &made_by(card, &calls));
            let differ = |slot| both.entry(card, slot) != alone.entry(card, slot);
            entries += (1..=24).filter(|&slot| differ(slot)).count();
            summaries += usize::from(both.summary(card) != alone.summary(card));
            let differ = |channel| both.health(card, channel) != alone.health(card, channel);
            healths += (0..48).filter(|&channel| differ(channel)).count();
        }
        assert!(entries > 100 && summaries > 10 && healths > 10);
    }
}
