//! The made input asks by every card, for what is its own and what is the other's. The seed is
//! that of the stored input.

use std::collections::HashSet;

use second::block::{fields, Field};
use second::listing::Record;
use second::make;
use second::refusal::Refusal;
use second::request::{
    pieces, Piece, Request, BLOCK, ENTRY, ENTRY_WORDS, HEALTH, IMMEDIATE, OFFER, RESET, SUMMARY,
    TALLIES,
};
use second::station::card::{ONE, TWO};
use second::station::reception::receive;
use second::station::Station;
use second::trial::answer_piece;
use second::trial::sites::Sites;

const CARDS: [u8; 5] = [0, 1, 2, 3, 255];
const CHANNELS: [u8; 5] = [23, 24, 47, 48, 255];
const OF_CHANNELS: [u8; 5] = [OFFER, RESET, IMMEDIATE, TALLIES, HEALTH];

/// A request of a card, and its lines.
struct Answered<'a> {
    card: u8,
    /// By a request of any card, and not by one that speaks for card one.
    is_named: bool,
    /// As card one would ask.
    op: u8,
    payload: &'a [u8],
    lines: Vec<String>,
    /// What an offer that is shut out would be answered else.
    answer_else: Option<u8>,
}

fn answered(input: &[u8]) -> Vec<Answered<'_>> {
    let mut sites = Sites::default();
    let mut found = Vec::new();
    for piece in pieces(input) {
        let Piece::Whole(request) = piece else {
            continue;
        };
        let asked_by = request.asked_by();
        let answer_else = asked_by
            .filter(|(card, asked)| is_shut_out(*card, *asked))
            .map(|(_, asked)| answer_else(&sites.in_use, asked.payload));
        let answer = answer_piece(&mut sites, piece);
        let Some((card, asked)) = asked_by else {
            continue;
        };
        if answer != format!("bad {}", request.op) {
            found.push(Answered {
                card,
                is_named: request.op > asked.op,
                op: asked.op,
                payload: asked.payload,
                lines: answer.lines().map(String::from).collect(),
                answer_else,
            });
        }
    }
    found
}

fn is_shut_out(card: u8, asked: Request) -> bool {
    match (asked.op, asked.payload) {
        (OFFER, [channel, _, _, _, _, ..]) => shut_out(card, *channel).is_some(),
        _ => false,
    }
}

/// 0 where the call is granted.
fn number_in(line: &str) -> u8 {
    let rest = line.strip_prefix("no ").map(|rest| rest.split(' ').next());
    rest.flatten().map_or(0, |number| number.parse().unwrap())
}

/// 16, 1 or 15 for a card and a channel; none where the channel is the card's own.
fn shut_out(card: u8, channel: u8) -> Option<u8> {
    match (card, channel) {
        (ONE, 0..24) | (TWO, 24..48) => None,
        (ONE | TWO, 0..48) => Some(15),
        (ONE | TWO, _) => Some(1),
        _ => Some(16),
    }
}

fn require_number(card: u8, channel: u8, number: u8) {
    match shut_out(card, channel) {
        None => assert!(![1, 15, 16].contains(&number), "{card}, {channel}"),
        Some(expected) => assert_eq!(number, expected, "{card}, {channel}"),
    }
}

#[test]
fn every_card_asks_for_every_channel_in_every_request() {
    let input = make::trial_input(20260);
    let mut found = HashSet::new();
    for request in answered(&input) {
        if OF_CHANNELS.contains(&request.op) {
            let channel = request.payload[0];
            require_number(request.card, channel, number_in(&request.lines[0]));
            found.insert((request.is_named, request.op, request.card, channel));
        }
    }
    for op in OF_CHANNELS {
        for channel in CHANNELS {
            assert!(found.contains(&(false, op, ONE, channel)), "{op}");
            for card in CARDS {
                assert!(found.contains(&(true, op, card, channel)), "{op}, {card}");
            }
        }
    }
}

#[test]
fn every_card_asks_for_slots_and_the_summary() {
    let input = make::trial_input(20260);
    let mut found = HashSet::new();
    for request in answered(&input) {
        if [ENTRY, ENTRY_WORDS, SUMMARY].contains(&request.op) {
            let number = number_in(&request.lines[0]);
            assert_eq!(number == 16, ![ONE, TWO].contains(&request.card));
            let slot = request.payload.first().copied();
            found.insert((request.op, request.card, slot, number));
        }
    }
    for card in CARDS {
        let expected = |number| match card {
            ONE | TWO => number,
            _ => 16,
        };
        assert!(found.contains(&(SUMMARY, card, None, expected(0))));
        for (slot, number) in [
            (0, 14),
            (1, 0),
            (24, 0),
            (1, 13),
            (24, 13),
            (25, 14),
            (255, 14),
        ] {
            for op in [ENTRY, ENTRY_WORDS] {
                let wanted = (op, card, Some(slot), expected(number));
                assert!(found.contains(&wanted), "{wanted:?}");
            }
        }
    }
}

/// The tag and the channel of a call in a block.
fn call_in(field: Field) -> Option<(u8, u8)> {
    match field {
        Field::Offer(Record { channel, .. }) => Some((1, channel)),
        Field::Reset { channel } => Some((2, channel)),
        Field::Remark => None,
    }
}

#[test]
fn every_card_asks_for_every_channel_in_blocks() {
    let input = make::trial_input(20260);
    let (mut calls, mut ends) = (HashSet::new(), HashSet::new());
    for request in answered(&input) {
        if request.op != BLOCK {
            continue;
        }
        let in_block = fields(request.payload).flatten().filter_map(call_in);
        let in_block: Vec<(u8, u8)> = in_block.collect();
        let (end, lines) = request.lines.split_last().unwrap();
        assert_eq!(in_block.len(), lines.len());
        for ((tag, channel), line) in in_block.into_iter().zip(lines) {
            require_number(request.card, channel, number_in(line));
            calls.insert((request.card, tag, channel));
        }
        ends.insert((request.card, number_in(end), lines.is_empty()));
    }
    for card in CARDS {
        for channel in CHANNELS {
            assert!([1, 2]
                .iter()
                .all(|&tag| calls.contains(&(card, tag, channel))));
        }
        for end in [0, 41, 42, 43] {
            for is_empty in [true, false] {
                assert!(ends.contains(&(card, end, is_empty)), "{card}: {end}");
            }
        }
    }
}

/// What the string would be answered on its own channel by its card; on no channel as far as
/// the string alone tells.
fn answer_else(station: &Station, payload: &[u8]) -> u8 {
    let channel = payload[0];
    let (epoch, symbols) = payload[1..].split_first_chunk().unwrap();
    let owner = match channel {
        0..24 => ONE,
        24..48 => TWO,
        _ => {
            let number = receive(symbols).and_then(|received| received.string.require_m());
            return number.map_or_else(Refusal::number, |_| 0);
        }
    };
    let epoch = u32::from_be_bytes(*epoch);
    let answer = station
        .clone()
        .offer(owner, usize::from(channel), epoch, symbols);
    answer.map_or_else(Refusal::number, |_| 0)
}

/// Each of the three numbers comes before each refusal that the string itself would have.
#[test]
fn strings_that_are_shut_out_have_every_other_wrong() {
    let input = make::trial_input(20260);
    let mut found = HashSet::new();
    for request in answered(&input) {
        if let Some(own) = request.answer_else {
            let number = shut_out(request.card, request.payload[0]).unwrap();
            found.insert((number, own));
        }
    }
    for own in [0, 2, 31, 32, 33, 4, 5] {
        for number in [16, 1, 15] {
            assert!(found.contains(&(number, own)), "{number} before {own}");
        }
    }
    for own in 6..=9 {
        for number in [16, 15] {
            assert!(found.contains(&(number, own)), "{number} before {own}");
        }
    }
}

/// What came of an offer: the news and whether it was repaired, or the number.
fn sort_of(line: &str) -> String {
    match line.split(' ').collect::<Vec<_>>()[..] {
        ["taken", _, bit, news, _] => format!("{news} {}", bit != "0"),
        _ => String::from(line),
    }
}

/// By cards one and two, one by one and in blocks: every news, clean and repaired, and every
/// number.
#[test]
fn both_cards_are_offered_every_sort() {
    let input = make::trial_input(20260);
    let mut found = HashSet::new();
    for request in answered(&input) {
        let Answered { card, op, .. } = request;
        if request.is_named && [OFFER, BLOCK].contains(&op) {
            let sorts = request.lines.iter().map(|line| sort_of(line));
            found.extend(sorts.map(|sort| (card, op, sort)));
        }
    }
    let numbers = [1, 15, 2, 31, 32, 33].into_iter().chain(4..=9);
    let mut sorts: Vec<String> = numbers.map(|number| format!("no {number}")).collect();
    for news in 0..=3 {
        sorts.extend([format!("{news} false"), format!("{news} true")]);
    }
    for card in [ONE, TWO] {
        for op in [OFFER, BLOCK] {
            for sort in &sorts {
                let wanted = (card, op, sort.clone());
                assert!(found.contains(&wanted), "{wanted:?}");
            }
        }
    }
}
