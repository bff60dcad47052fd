//! What two cards hear of the sample, second by second, and the same as requests.

use second::block::{fields, Field};
use second::listing::{Record, RECORD_BYTES};
use second::make;
use second::request::{
    card::FOR_ANY_CARD, pieces, Piece, Request, BLOCK, ENTRY, ENTRY_WORDS, HEALTH, IMMEDIATE,
    NAVIGATION, SUMMARY, TALLIES,
};
use second::station::card::{ONE, TWO};
use second::trial;

/// The sample has 212 records, from epoch 3 to epoch 174.
const RECORDS: usize = 212;
const EPOCHS: std::ops::RangeInclusive<u32> = 3..=174;

/// What is asked of each channel, and then of each slot.
const OF_A_CHANNEL: [u8; 4] = [HEALTH, IMMEDIATE, TALLIES, NAVIGATION];
const OF_A_SLOT: [u8; 2] = [ENTRY, ENTRY_WORDS];

fn sample() -> Vec<Record> {
    let bytes = make::sample_for_listing();
    let (records, rest) = bytes.as_chunks::<RECORD_BYTES>();
    assert!(rest.is_empty());
    records.iter().map(Record::from_bytes).collect()
}

/// The blocks of the file: each has its length before it, and nothing is left over.
fn blocks() -> Vec<Vec<u8>> {
    let mut file = &make::card()[..];
    let mut blocks = Vec::new();
    while let Some((length, rest)) = file.split_first_chunk() {
        let (block, behind) = rest.split_at(usize::from(u16::from_be_bytes(*length)));
        blocks.push(block.to_vec());
        file = behind;
    }
    assert!(file.is_empty());
    blocks
}

/// The records that a card hears, second by second; its blocks have offers alone.
fn heard_by(card: u8) -> Vec<Vec<Record>> {
    let blocks = blocks();
    let of_card = blocks.iter().skip(usize::from(card) - 1).step_by(2);
    let offer = |field| match field {
        Ok(Field::Offer(record)) => record,
        other => panic!("{other:?}"),
    };
    of_card
        .map(|block| fields(block).map(offer).collect())
        .collect()
}

/// The epoch in which each record comes: the greatest of those up to it.
fn coming(records: &[Record]) -> Vec<(u32, Record)> {
    let epoch_at = |index| records[..=index].iter().map(|record| record.epoch).max();
    let indexes = 0..records.len();
    indexes
        .map(|index| (epoch_at(index).unwrap(), records[index]))
        .collect()
}

#[test]
fn there_is_a_block_of_each_card_for_every_second() {
    assert_eq!(blocks().len(), 2 * 2 * EPOCHS.count());
    assert!(make::card().len() < 16 * 1024);
    for card in [ONE, TWO] {
        let seconds = heard_by(card);
        assert!(seconds.iter().any(Vec::is_empty));
        assert!(seconds.iter().any(|second| second.len() > 1));
    }
}

#[test]
fn card_one_hears_the_sample_as_it_is() {
    let coming = coming(&sample());
    let mut seconds = heard_by(ONE).into_iter();
    for epoch in EPOCHS {
        for parity in [0, 1] {
            let is_now =
                |(at, record): &&(u32, Record)| *at == epoch && record.channel % 2 == parity;
            let expected: Vec<Record> = coming.iter().filter(is_now).map(|come| come.1).collect();
            assert_eq!(seconds.next(), Some(expected), "{epoch}, {parity}");
        }
    }
    assert_eq!(seconds.next(), None);
}

#[test]
fn card_two_hears_the_same_on_its_own_channels() {
    let moved = |record: &Record| Record {
        channel: match record.channel {
            channel @ 0..24 => channel + 24,
            channel => channel,
        },
        ..*record
    };
    let expected = heard_by(ONE).into_iter();
    let expected: Vec<Vec<Record>> = expected
        .map(|second| second.iter().map(moved).collect())
        .collect();
    assert_eq!(heard_by(TWO), expected);
}

/// The late string and the early one, too; on each channel in the order of the sample.
#[test]
fn every_record_is_heard_once_and_each_channel_in_order() {
    let sample = sample();
    assert_eq!(sample.len(), RECORDS);
    let heard = heard_by(ONE).concat();
    assert_eq!(heard.len(), RECORDS);
    assert_eq!(heard_by(TWO).concat().len(), RECORDS);
    for channel in 0..=u8::MAX {
        let on_channel = |record: &&Record| record.channel == channel;
        assert!(heard
            .iter()
            .filter(on_channel)
            .eq(sample.iter().filter(on_channel)));
    }
}

/// The whole requests of the input, which has nothing else.
fn requests(input: &[u8]) -> Vec<Request<'_>> {
    let request = |piece| match piece {
        Piece::Whole(request) => request,
        Piece::Short(count) => panic!("{count} bytes"),
    };
    pieces(input).map(request).collect()
}

#[test]
fn the_requests_hand_over_the_blocks_and_then_ask() {
    let mut expected: Vec<(u8, Vec<u8>)> = Vec::new();
    for pair in blocks().chunks(2) {
        for (card, block) in [ONE, TWO].into_iter().zip(pair) {
            expected.push((BLOCK + FOR_ANY_CARD, [&[card], &block[..]].concat()));
        }
        expected.push((SUMMARY + FOR_ANY_CARD, vec![ONE]));
    }
    for (card, channels) in [(ONE, 0..24), (TWO, 24..48)] {
        for channel in channels {
            for op in OF_A_CHANNEL {
                expected.push(match op {
                    NAVIGATION => (op, vec![card, channel, 1, 64]),
                    _ => (op + FOR_ANY_CARD, vec![card, channel]),
                });
            }
        }
    }
    for slot in 1..=24 {
        expected.extend(OF_A_SLOT.map(|op| (op + FOR_ANY_CARD, vec![ONE, slot])));
    }
    let input = make::card_for_trial();
    let requests = requests(&input).into_iter();
    let asked = requests.map(|request| (request.op, request.payload.to_vec()));
    assert!(asked.eq(expected));
}

/// The answers to the last requests: four for each channel, two for each slot.
fn answers_at_the_end() -> Vec<String> {
    let input = make::card_for_trial();
    let answers: Vec<String> = trial::answers(&input).map(|(_, answer)| answer).collect();
    assert!(answers.iter().all(|answer| !answer.starts_with("bad")));
    answers[answers.len() - 48 * OF_A_CHANNEL.len() - 24 * OF_A_SLOT.len()..].to_vec()
}

/// But that card two also hears the string on channel 24, which is not card one's: it holds it
/// already, and counts it.
#[test]
fn both_cards_are_told_the_same() {
    let answers = answers_at_the_end();
    let (one, rest) = answers.split_at(24 * OF_A_CHANNEL.len());
    let (two, of_slots) = rest.split_at(one.len());
    let tallies = 2;
    assert!(one[tallies].starts_with("ok 18 15 0 3 "), "{}", one[2]);
    assert!(two[tallies].starts_with("ok 19 16 0 3 "), "{}", two[2]);
    assert_eq!(one[..tallies], two[..tallies]);
    assert_eq!(one[tallies + 1..], two[tallies + 1..]);
    assert!(of_slots.iter().all(|answer| answer.starts_with("ok ")));
}

/// Four of a card's channels hear something and have a record. At the end two of them have a
/// navigation record, one has an NT out of range, and one has no string 5 of its record's frame.
#[test]
fn four_channels_of_a_card_have_records() {
    let answers = answers_at_the_end();
    let (rows, _) = answers.as_chunks::<{ OF_A_CHANNEL.len() }>();
    for (channel, [health, record, tallies, text]) in rows[..24].iter().enumerate() {
        let (is_heard, expected) = match channel {
            0 | 5 => (true, "ok "),
            1 => (true, "no 10 26"),
            2 => (true, "no 13"),
            _ => (false, "no 13"),
        };
        assert_eq!(health != "ok 0", is_heard, "{channel}");
        assert_eq!(record.starts_with("ok "), is_heard, "{channel}");
        assert_eq!(!tallies.starts_with("ok 0 "), is_heard, "{channel}");
        assert!(text.starts_with(expected), "{channel}: {text}");
    }
}
