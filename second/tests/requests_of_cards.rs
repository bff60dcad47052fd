//! `trial`'s requests of any card: 32 higher than those of card one, with the card first.

use second::known::B;
use second::request::card::{FOR_ANY_CARD, OF_CARDS};
use second::request::{
    BLOCK, ENTRY, ENTRY_WORDS, FRESH, HEALTH, IMMEDIATE, OFFER, RESET, SUMMARY, TALLIES,
};
use second::trial;

#[path = "common/requests.rs"]
mod requests;

use requests::{answers, written, Asked};

/// Those of any card, as they are numbered.
const NUMBERS: [u8; 9] = [38, 39, 40, 41, 42, 43, 45, 46, 55];

fn by(card: u8, op: u8, payload: &[u8]) -> Asked {
    (op + FOR_ANY_CARD, [&[card], payload].concat())
}

fn answer(request: Asked) -> String {
    answers(&[request]).concat()
}

/// B on this channel at epoch 100.
fn offer_of_b(channel: u8) -> Vec<u8> {
    [&[channel, 0, 0, 0, 100], &B[..]].concat()
}

fn field_of_b(channel: u8) -> Vec<u8> {
    [&[1, 0, 16], &offer_of_b(channel)[..]].concat()
}

#[test]
fn the_requests_of_any_card_are_32_higher() {
    assert_eq!(OF_CARDS, [6, 7, 8, 9, 10, 11, 13, 14, 23]);
    assert_eq!(OF_CARDS.map(|op| op + FOR_ANY_CARD), NUMBERS);
}

/// For the channels and the slots that a card may ask for.
#[test]
fn card_one_is_answered_alike_in_both_forms() {
    let calls: Vec<(u8, Vec<u8>)> = vec![
        (OFFER, offer_of_b(0)),
        (OFFER, offer_of_b(24)),
        (OFFER, offer_of_b(48)),
        (TALLIES, vec![0]),
        (IMMEDIATE, vec![0]),
        (HEALTH, vec![0]),
        (ENTRY, vec![1]),
        (ENTRY_WORDS, vec![25]),
        (SUMMARY, vec![]),
        (BLOCK, field_of_b(1)),
        (BLOCK, vec![]),
        (RESET, vec![0]),
        (RESET, vec![47]),
    ];
    let named: Vec<Asked> = calls
        .iter()
        .map(|(op, payload)| by(1, *op, payload))
        .collect();
    assert_eq!(answers(&named), answers(&calls));
}

/// By cards 0, 1, 2, 3 and 255 in turn.
#[test]
fn every_request_has_its_numbers() {
    let [none, owner, channel] = ["no 16", "no 15", "no 1"];
    let expected = [
        (23, [none, "", owner, none, none]),
        (24, [none, owner, "", none, none]),
        (47, [none, owner, "", none, none]),
        (48, [none, channel, channel, none, none]),
        (255, [none, channel, channel, none, none]),
    ];
    let served = [
        (OFFER, "taken 1 0 1 0"),
        (RESET, "ok"),
        (IMMEDIATE, "no 13"),
        (TALLIES, "ok 0 0 0 0 0 0 0 0 0 0 0 0 0 0"),
        (HEALTH, "ok 0"),
    ];
    for (channel, lines) in expected {
        for (card, line) in [0, 1, 2, 3, 255].into_iter().zip(lines) {
            for (op, own) in served {
                let payload = match op {
                    OFFER => offer_of_b(channel),
                    _ => vec![channel],
                };
                let line = if line.is_empty() { own } else { line };
                assert_eq!(answer(by(card, op, &payload)), line, "{op}, {channel}");
            }
        }
    }
}

#[test]
fn slots_and_the_summary_are_there_for_both_cards_and_no_others() {
    for (card, lines) in [
        (0, ["no 16", "no 16", "no 16"]),
        (1, ["no 14", "no 13", "ok 0 0 0"]),
        (2, ["no 14", "no 13", "ok 0 0 0"]),
        (3, ["no 16", "no 16", "no 16"]),
        (255, ["no 16", "no 16", "no 16"]),
    ] {
        for op in [ENTRY, ENTRY_WORDS] {
            assert_eq!(answer(by(card, op, &[25])), lines[0]);
            assert_eq!(answer(by(card, op, &[24])), lines[1]);
        }
        assert_eq!(answer(by(card, SUMMARY, &[])), lines[2]);
    }
}

/// The place is counted from the block's first byte, behind the card.
#[test]
fn a_block_of_any_card_has_the_lines_of_its_calls() {
    let block = [
        field_of_b(23),
        field_of_b(24),
        vec![2, 0, 1, 48],
        vec![4, 0, 0],
    ];
    for (card, lines) in [
        (0, ["no 16", "no 16", "no 16"]),
        (1, ["taken 1 0 1 0", "no 15", "no 1"]),
        (2, ["no 15", "taken 1 0 1 0", "no 1"]),
        (3, ["no 16", "no 16", "no 16"]),
    ] {
        let asked = by(card, BLOCK, &block.concat());
        assert_eq!(answers(&[asked]), [&lines[..], &["no 41 42"]].concat());
        assert_eq!(answer(by(card, BLOCK, &[])), "end");
        assert_eq!(answer(by(card, BLOCK, &[2, 0])), "no 43 0");
        assert_eq!(answer(by(card, BLOCK, &[2, 0, 0])), "no 42 0");
    }
}

#[test]
fn payloads_of_no_such_length_are_bad_by_the_number_that_came() {
    for number in NUMBERS {
        assert_eq!(answer((number, vec![])), format!("bad {number}"));
    }
    for card in [0, 1, 2, 3, 255] {
        for length in 0..5 {
            assert_eq!(answer(by(card, OFFER, &vec![0; length])), "bad 38");
        }
        for op in [RESET, IMMEDIATE, ENTRY, TALLIES, HEALTH, ENTRY_WORDS] {
            for payload in [&[][..], &[1, 0], &[0; 256]] {
                let line = format!("bad {}", op + 32);
                assert_eq!(answer(by(card, op, payload)), line);
            }
        }
        assert_eq!(answer(by(card, SUMMARY, &[0])), "bad 46");
    }
}

#[test]
fn a_fresh_station_names_no_card() {
    for payload in [&[][..], &[1], &[2]] {
        assert_eq!(answer((44, payload.to_vec())), "bad 44");
    }
    let requests = [
        by(2, OFFER, &offer_of_b(47)),
        (FRESH, vec![]),
        by(2, TALLIES, &[47]),
    ];
    let lines = ["taken 1 0 1 0", "ok", "ok 0 0 0 0 0 0 0 0 0 0 0 0 0 0"];
    assert_eq!(answers(&requests), lines);
}

#[test]
fn every_other_number_from_32_to_63_is_unknown() {
    for op in (32..64).filter(|op| !NUMBERS.contains(op)) {
        for payload in [&[][..], &[1], &[2, 24], &offer_of_b(0)] {
            assert_eq!(answer((op, payload.to_vec())), format!("bad {op}"));
        }
    }
}

#[test]
fn all_48_rows_begin_near_the_limit() {
    let of_all = |card, channels: std::ops::Range<u8>| -> Vec<Asked> {
        channels
            .map(|channel| by(card, TALLIES, &[channel]))
            .collect()
    };
    let requests = [of_all(1, 0..24), of_all(2, 24..48)].concat();
    let lines = trial::answer_input_near_the_limit(&written(&requests));
    let line = format!("ok{}\n", " 4294967293".repeat(14));
    assert_eq!(lines, line.repeat(48));
}
