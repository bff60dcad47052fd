//! The made calls of a card's program: as many as asked, of every kind, and with meaning.

use std::collections::{BTreeMap, HashSet};

use second::block::{fields, Field};
use second::make;
use second::refusal::Refusal;
use second::request::{
    card::FOR_ANY_CARD, pieces, Piece, Request, BLOCK, ENTRY, ENTRY_WORDS, FRESH, HEALTH,
    IMMEDIATE, JOIN, NAVIGATION, OFFER, OTHER_STATION, RESET, SUMMARY, TALLIES,
};
use second::station::card::{ONE, TWO};
use second::station::Station;
use second::trial::answer_piece;
use second::trial::sites::Sites;

const SEEDS: [u64; 3] = [20260, 1, u64::MAX];
const COUNT: u64 = 20_000;

/// A refused field and an offer behind it.
const TWO_FIELDS: usize = 40;

const OF_CHANNELS: [u8; 6] = [OFFER, RESET, IMMEDIATE, TALLIES, HEALTH, NAVIGATION];
const QUESTIONS: [u8; 7] = [
    IMMEDIATE,
    ENTRY,
    TALLIES,
    HEALTH,
    SUMMARY,
    NAVIGATION,
    ENTRY_WORDS,
];

fn calls(seed: u64, count: u64) -> Vec<u8> {
    let mut input = Vec::new();
    make::write_calls(seed, count, &mut input).unwrap();
    input
}

/// A request and its lines, with the stations before it and after it.
struct Call<'a> {
    request: Request<'a>,
    lines: Vec<String>,
    before: &'a Sites,
    after: &'a Sites,
}

impl Call<'_> {
    /// Who asks, and for what, as card one would; fresh stations and joins name no card.
    fn asked(&self) -> (Option<u8>, u8, &[u8]) {
        match self.request.asked_by() {
            Some((card, asked)) => (Some(card), asked.op, asked.payload),
            None => (None, self.request.op, self.request.payload),
        }
    }

    fn op(&self) -> u8 {
        self.asked().1
    }
}

fn for_each_call(input: &[u8], mut look: impl FnMut(Call)) {
    let mut sites = Sites::default();
    for piece in pieces(input) {
        let Piece::Whole(request) = piece else {
            panic!("{piece:?}");
        };
        let before = sites.clone();
        let lines = answer_piece(&mut sites, piece);
        look(Call {
            request,
            lines: lines.lines().map(String::from).collect(),
            before: &before,
            after: &sites,
        });
    }
}

/// 0 where it says anything but no.
fn number_of(line: &str) -> u8 {
    match line.split(' ').collect::<Vec<_>>()[..] {
        ["no", number, ..] => number.parse().unwrap(),
        _ => 0,
    }
}

#[test]
fn there_are_as_many_as_asked() {
    for count in [0, 1, 2, 3, 1399, 1400, 1401, 5000] {
        let input = calls(7, count);
        assert_eq!(pieces(&input).count() as u64, count);
        for_each_call(&input, |_| ());
        assert!(calls(7, 5000).starts_with(&input));
    }
}

#[test]
fn they_follow_from_their_seed() {
    for seed in SEEDS {
        assert_eq!(calls(seed, 3000), calls(seed, 3000));
        assert_ne!(calls(seed, 3000), calls(seed.wrapping_add(1), 3000));
    }
}

#[test]
fn every_request_of_a_station_is_there_often_enough() {
    let of_card_one = (OFFER..=SUMMARY).chain([ENTRY_WORDS]);
    let rare = [FRESH, OTHER_STATION, JOIN];
    let any_card = of_card_one.clone().filter(|op| !rare.contains(op));
    let ops: Vec<u8> = of_card_one
        .chain(any_card.map(|op| op + FOR_ANY_CARD))
        .chain([NAVIGATION, OTHER_STATION, JOIN])
        .collect();
    for seed in SEEDS {
        let mut counts = BTreeMap::new();
        for_each_call(&calls(seed, COUNT), |call| {
            *counts.entry(call.request.op).or_insert(0) += 1;
        });
        assert_eq!(counts.values().sum::<u64>(), COUNT);
        assert_eq!(counts.len(), ops.len(), "{counts:?}");
        for op in &ops {
            let least = match rare.contains(op) {
                true => 20,
                false => COUNT / 100,
            };
            assert!(counts[op] >= least, "{op}: {counts:?}");
        }
    }
}

#[test]
fn every_number_of_a_station_is_answered_and_no_other() {
    let numbers = [0, 1, 2].into_iter().chain(4..=10).chain(13..=17);
    let numbers: HashSet<u8> = numbers.chain(31..=33).chain(41..=43).collect();
    for seed in SEEDS {
        let mut found = HashSet::new();
        for_each_call(&calls(seed, COUNT), |call| {
            assert!(!call.lines[0].starts_with("bad"), "{:?}", call.request);
            found.extend(call.lines.iter().map(|line| number_of(line)));
        });
        assert_eq!(found, numbers);
    }
}

/// About half of the requests ask, and most questions about a channel are about one that the
/// call before them names.
#[test]
fn what_may_have_changed_is_asked() {
    let (mut questions, mut of_channels, mut of_named) = (0, 0, 0);
    let mut named: Vec<u8> = Vec::new();
    for_each_call(&calls(20260, COUNT), |call| {
        let (_, op, payload) = call.asked();
        if !QUESTIONS.contains(&op) {
            named = channels_named(op, payload);
            return;
        }
        questions += 1;
        if OF_CHANNELS.contains(&op) && !named.is_empty() {
            of_channels += 1;
            of_named += u64::from(named.contains(&payload[0]));
        }
    });
    assert!(
        (45..=55).contains(&(100 * questions / COUNT)),
        "{questions}"
    );
    assert!(10 * of_named > 7 * of_channels, "{of_named}, {of_channels}");
}

fn channels_named(op: u8, payload: &[u8]) -> Vec<u8> {
    let channel = |field| match field {
        Field::Offer(record) => Some(record.channel),
        Field::Reset { channel } => Some(channel),
        Field::Remark => None,
    };
    match op {
        OFFER | RESET => vec![payload[0]],
        BLOCK => fields(payload).flatten().filter_map(channel).collect(),
        _ => Vec::new(),
    }
}

#[test]
fn cards_channels_and_slots_that_there_are_not_are_named() {
    let mut found = HashSet::new();
    for_each_call(&calls(20260, COUNT), |call| {
        if let (Some(card), op, payload) = call.asked() {
            let which = match op {
                BLOCK | SUMMARY => None,
                _ => Some(payload[0]),
            };
            found.insert((card, op, which));
        }
    });
    let is_there = |card, op, which| found.contains(&(card, op, Some(which)));
    for op in OF_CHANNELS {
        for card in [ONE, TWO] {
            assert!([47, 48, 255].iter().all(|&which| is_there(card, op, which)));
        }
        assert!((24..48).any(|channel| is_there(ONE, op, channel)));
        assert!((0..24).any(|channel| is_there(TWO, op, channel)));
    }
    for op in [ENTRY, ENTRY_WORDS] {
        for slot in (0..=25).chain([255]) {
            assert!(is_there(ONE, op, slot) || is_there(TWO, op, slot), "{slot}");
        }
        assert!([0, 24, 25, 255].iter().all(|&slot| is_there(ONE, op, slot)));
    }
    for op in OF_CHANNELS.into_iter().chain(QUESTIONS).chain([BLOCK]) {
        for card in [0, 3, 255] {
            assert!(found
                .iter()
                .any(|&(who, what, _)| (who, what) == (card, op)));
        }
    }
}

/// A card, and news, repair and polarity of a string that it offered.
type Sort = (u8, [String; 3]);

fn sort_of(card: u8, line: &str) -> Option<Sort> {
    let ["taken", _, bit, news, polarity] = line.split(' ').collect::<Vec<_>>()[..] else {
        return None;
    };
    let repair = (bit != "0").to_string();
    Some((card, [news.to_string(), repair, polarity.to_string()]))
}

/// Each news of both cards: clean and repaired, in either polarity. A record out of range is
/// rare. And there are strings of no such length.
#[test]
fn strings_of_every_sort_are_offered() {
    let (mut found, mut lengths) = (HashSet::new(), HashSet::new());
    for_each_call(&calls(20260, COUNT), |call| {
        let (card, op, payload) = call.asked();
        if op == OFFER {
            lengths.insert(payload.len() - 5);
        }
        let sorts = call.lines.iter().filter_map(|line| sort_of(card?, line));
        found.extend(sorts);
    });
    for card in [ONE, TWO] {
        let count = |news: &str| {
            let sorts = found.iter();
            sorts
                .filter(|(who, [what, ..])| (*who, what.as_str()) == (card, news))
                .count()
        };
        assert_eq!(["0", "1", "2"].map(count), [4, 4, 4], "{found:?}");
        assert!(count("3") > 0, "{found:?}");
    }
    let wrong = [0, 1, 2, 8, 9, 10, 12, 13, 16, 22, 255, 256, 300];
    assert!(wrong.iter().all(|length| lengths.contains(length)));
}

/// Empty ones, long ones, with all three tags, and with good fields behind a refused one. None is
/// longer than the program of a card has room for.
#[test]
fn blocks_have_several_fields() {
    let (mut empty, mut long, mut remarks, mut resets, mut refused) = (0, 0, 0, 0, 0);
    for_each_call(&calls(20260, COUNT), |call| {
        assert!(call.request.payload.len() <= 512);
        let (_, op, payload) = call.asked();
        if op != BLOCK {
            return;
        }
        let fields: Vec<_> = fields(payload).collect();
        empty += u32::from(fields.is_empty());
        long += u32::from(fields.len() > 12);
        remarks += u32::from(fields.contains(&Ok(Field::Remark)));
        let is_reset = |field: &Result<Field, _>| matches!(field, Ok(Field::Reset { .. }));
        resets += u32::from(fields.iter().any(is_reset));
        if let Some(Err(Refusal::Field { place, .. })) = fields.last() {
            refused += u32::from(payload.len() > place + TWO_FIELDS);
        }
    });
    for count in [empty, long, remarks, resets, refused] {
        assert!(count >= 50, "{empty} {long} {remarks} {resets} {refused}");
    }
}

fn newest_day(station: &Station) -> i64 {
    station.summary(ONE).unwrap().newest
}

fn entries(station: &Station) -> usize {
    (1..=24)
        .filter(|&slot| station.entry(ONE, slot).is_ok())
        .count()
}

/// Slots of the two that differ.
fn changed_slots(before: &Station, after: &Station) -> usize {
    let differs = |&slot: &usize| before.entry(ONE, slot) != after.entry(ONE, slot);
    (1..=24).filter(differs).count()
}

#[test]
fn books_are_filled_days_rise_and_joins_change_slots() {
    for seed in SEEDS {
        let (mut full, mut later, mut joined) = (0, 0, 0);
        for_each_call(&calls(seed, COUNT), |call| {
            let (before, after) = (&call.before.in_use, &call.after.in_use);
            match call.op() {
                OFFER | BLOCK => {
                    let was_empty = entries(before) == 0;
                    full += u32::from(entries(before) < 24 && entries(after) == 24);
                    later += u32::from(!was_empty && newest_day(after) > newest_day(before));
                }
                JOIN => joined += u32::from(changed_slots(before, after) > 0),
                _ => (),
            }
        });
        assert!(full >= 10, "{seed}: {full}");
        assert!(later >= 10, "{seed}: {later}");
        assert!(joined >= 30, "{seed}: {joined}");
    }
}

/// Of both cards, with the records and the health that they need; and in other rooms.
#[test]
fn navigation_records_are_written() {
    for seed in SEEDS {
        let mut counts = BTreeMap::new();
        for_each_call(&calls(seed, COUNT), |call| {
            let (card, op, _) = call.asked();
            if let (Some(card), IMMEDIATE | NAVIGATION) = (card, op) {
                let answered = (card, op, number_of(&call.lines[0]));
                *counts.entry(answered).or_insert(0) += 1;
            }
            if op == HEALTH {
                *counts
                    .entry((0, op, call.lines[0].as_bytes()[3]))
                    .or_insert(0) += 1;
            }
        });
        for card in [ONE, TWO] {
            assert!(counts[&(card, IMMEDIATE, 0)] >= 200, "{counts:?}");
            assert!(counts[&(card, NAVIGATION, 0)] >= 50, "{counts:?}");
            assert!(counts[&(card, NAVIGATION, 10)] >= 10, "{counts:?}");
            assert!(counts[&(card, NAVIGATION, 17)] >= 5, "{counts:?}");
        }
        for health in *b"012" {
            assert!(counts[&(0, HEALTH, health)] >= 50, "{counts:?}");
        }
    }
}
