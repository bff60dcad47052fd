//! Which card may ask for what, and what the two cards share.

use second::block::{hand_over, offer_field, remark_field, reset_field, Answer};
use second::known::{received_frame, B};
use second::listing::Record;
use second::refusal::{FieldTrouble, Refusal};
use second::station::card::{ONE, TWO};
use second::station::tallies::Tallies;
use second::station::{Health, Station};

use crate::strings::*;

const CARDS: [u8; 5] = [0, 1, 2, 3, 255];
const CHANNELS: [usize; 6] = [0, 23, 24, 47, 48, 255];

/// By card and channel, in their orders; 0 where the call is served.
const NUMBERS: [[u8; 6]; 5] = [
    [16, 16, 16, 16, 16, 16],
    [0, 0, 15, 15, 1, 1],
    [15, 15, 0, 0, 1, 1],
    [16, 16, 16, 16, 16, 16],
    [16, 16, 16, 16, 16, 16],
];

/// Every card with every channel, and the number that is expected.
fn table() -> impl Iterator<Item = (u8, usize, u8)> {
    let rows = CARDS.into_iter().zip(NUMBERS);
    rows.flat_map(|(card, numbers)| {
        let cells = CHANNELS.into_iter().zip(numbers);
        cells.map(move |(channel, number)| (card, channel, number))
    })
}

fn owner(channel: usize) -> u8 {
    if channel < 24 {
        ONE
    } else {
        TWO
    }
}

fn number_of<T>(answer: Result<T, Refusal>) -> u8 {
    answer.map_or_else(Refusal::number, |_| 0)
}

/// A record on each of channels 0, 23, 24 and 47, offered by its card.
fn station_of_two() -> Station {
    let mut station = Station::default();
    for (card, channel) in [(ONE, 0), (ONE, 23), (TWO, 24), (TWO, 47)] {
        take_all_by(card, &mut station, channel, 100, &strings_1_to_4(0, 1));
    }
    station
}

#[test]
fn every_call_on_a_channel_is_refused_in_the_order_16_1_15() {
    let whole = station_of_two();
    for (card, channel, number) in table() {
        let mut station = whole.clone();
        assert_eq!(number_of(station.immediate(card, channel)), number);
        assert_eq!(number_of(station.tallies(card, channel)), number);
        assert_eq!(number_of(station.health(card, channel)), number);
        assert_eq!(number_of(station.offer(card, channel, 115, &B)), number);
        assert_eq!(number_of(station.reset(card, channel)), number);
        assert_eq!(station == whole, number != 0, "card {card}, {channel}");
    }
}

/// Ten bytes would be 2, and the other string would be in conflict.
#[test]
fn what_is_wrong_with_a_string_comes_after_16_1_and_15() {
    let whole = station_of_two();
    let conflict = second::relative::to_relative(&string_1(7)).unwrap();
    for (symbols, own) in [(&B[..10], 2), (&conflict.to_bytes()[..], 9)] {
        for (card, channel, number) in table() {
            let mut station = whole.clone();
            let answer = station.offer(card, channel, 100, symbols);
            let expected = if number == 0 { own } else { number };
            assert_eq!(number_of(answer), expected);
            assert_eq!(station == whole, number != 0, "card {card}, {channel}");
        }
    }
}

/// "Neither is counted in any tally": an offer on the other's channel counts for no one.
#[test]
fn an_offer_that_is_shut_out_moves_no_tally_of_either() {
    let mut station = Station::default();
    for (card, channel) in [(ONE, 24), (TWO, 23), (0, 23), (3, 24), (ONE, 48), (TWO, 48)] {
        assert!(station.offer(card, channel, 100, &B).is_err());
        assert!(station.offer(card, channel, 100, &B[..10]).is_err());
    }
    for channel in 0..48 {
        let tallies = station.tallies(owner(channel), channel);
        assert_eq!(tallies, Ok(Tallies::default()));
    }
    assert_eq!(station, Station::default());
}

#[test]
fn the_book_is_refused_to_no_card_but_16_which_comes_before_14_and_13() {
    let station = station_with_received_frame(0);
    for card in CARDS {
        let is_none = ![ONE, TWO].contains(&card);
        for (slot, number) in [(0, 14), (1, 13), (16, 0), (24, 13), (25, 14), (255, 14)] {
            let expected = if is_none { 16 } else { number };
            assert_eq!(number_of(station.entry(card, slot)), expected);
        }
        assert_eq!(number_of(station.summary(card)), 16 * u8::from(is_none));
    }
}

fn offer_of_b(channel: u8) -> Vec<u8> {
    offer_field(&Record {
        channel,
        epoch: 115,
        symbols: B,
    })
}

/// An offer and a reset of each of the channels, remarks between them.
fn block_of_calls() -> Vec<u8> {
    let calls = CHANNELS.map(|channel| {
        let channel = channel as u8;
        let remark = remark_field(&offer_of_b(channel));
        [offer_of_b(channel), remark, reset_field(channel)].concat()
    });
    calls.concat()
}

#[test]
fn a_block_is_its_calls_by_the_card_that_hands_it_over() {
    for (card, numbers) in CARDS.into_iter().zip(NUMBERS) {
        let mut station = station_of_two();
        let handed_over = hand_over(&mut station, card, &block_of_calls());
        let answers: Vec<u8> = handed_over
            .answers
            .iter()
            .map(|answer| match answer {
                Answer::Offer(answer) => number_of(*answer),
                Answer::Reset(answer) => number_of(*answer),
            })
            .collect();
        let twice = numbers.map(|number| [number; 2]);
        assert_eq!(answers, twice.concat());
        assert_eq!(handed_over.end, Ok(()));
        let is_served = [ONE, TWO].contains(&card);
        assert_eq!(station == station_of_two(), !is_served);
    }
}

/// A card that there is not has 16 for each call, and stops where any card would.
#[test]
fn fields_are_refused_alike_for_every_card() {
    let good = block_of_calls();
    let place = good.len();
    for (field, trouble) in [
        (&[4, 0, 0][..], FieldTrouble::UnknownTag),
        (&[2, 0, 2, 0, 0], FieldTrouble::WrongLength),
        (&[1, 0, 16, 0], FieldTrouble::EndsInside),
    ] {
        for card in CARDS {
            let mut station = station_of_two();
            let handed_over = hand_over(&mut station, card, &[&good, field].concat());
            assert_eq!(handed_over.answers.len(), 12);
            assert_eq!(handed_over.end, Err(Refusal::Field { trouble, place }));
            let handed_over = hand_over(&mut station, card, field);
            assert_eq!(handed_over.answers.len(), 0);
            let refusal = Refusal::Field { trouble, place: 0 };
            assert_eq!(handed_over.end, Err(refusal));
        }
    }
}

/// "Only book entries, the summary, and health, which reads the book, may differ": card two
/// sees what card one has shown, and the other way round.
#[test]
fn what_one_card_shows_the_other_finds_in_the_book() {
    for (shows, on, asks, of) in [(ONE, 23, TWO, 24), (TWO, 47, ONE, 0)] {
        let mut station = Station::default();
        take_all_by(asks, &mut station, of, 100, &strings_1_to_4(0, 3));
        assert_eq!(station.entry(asks, 3), Err(Refusal::Nothing));
        assert_eq!(station.summary(asks).unwrap().count, 0);
        assert_eq!(station.health(asks, of), Ok(Health::Unknown));
        let record = station.immediate(asks, of).cloned();
        let tallies = station.tallies(asks, of);
        let three = [string_5(1, 10), even(6, 3, 1, 0), odd(7, 0, 0)];
        take_all_by(shows, &mut station, on, 100, &three);
        assert_eq!(station.entry(asks, 3), station.entry(shows, 3));
        assert_eq!(station.entry(asks, 3).map(|entry| entry.day), Ok(10));
        assert_eq!(station.summary(asks).unwrap().count, 1);
        assert_eq!(station.health(asks, of), Ok(Health::Usable));
        assert_eq!(station.immediate(asks, of).cloned(), record);
        assert_eq!(station.tallies(asks, of), tallies);
    }
}

/// The received frame on every channel that there is, each asked by its card.
#[test]
fn all_48_rows_are_rows_of_their_own() {
    for channel in 0..48 {
        let card = owner(channel);
        let mut station = Station::default();
        take_all_by(card, &mut station, channel, 100, &received_frame());
        for other in 0..48 {
            let has_a_record = station.immediate(owner(other), other).is_ok();
            assert_eq!(has_a_record, other == channel);
            let offered = station.tallies(owner(other), other).unwrap().offered;
            assert_eq!(offered, if other == channel { 15 } else { 0 });
        }
        station.reset(card, channel).unwrap();
        assert_eq!(station.summary(card).unwrap().count, 5);
    }
}

#[test]
fn every_row_of_both_cards_can_begin_near_the_limit() {
    let station = Station::with_tallies_at(4_294_967_293);
    for channel in 0..48 {
        let expected = Tallies::all_at(4_294_967_293);
        assert_eq!(station.tallies(owner(channel), channel), Ok(expected));
    }
}
