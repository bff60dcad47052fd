//! A sky is heard: its symbols are read back into strings, and what these leave in a fresh
//! station is what the sky has told.

use second::hamming::Verdict;
use second::make;
use second::relative::Polarity;
use second::sky::Sky;
use second::station::book::Summary;
use second::station::card::{ONE, TWO};
use second::station::row::News;
use second::station::Station;

/// Channels with their cards, and the epochs of the first strings.
const HEARD: [(u8, usize, u32); 5] = [
    (ONE, 0, 0),
    (ONE, 23, 100),
    (TWO, 24, 1),
    (TWO, 40, 1 << 31),
    (TWO, 47, u32::MAX - 74),
];

fn sky(seed: u64) -> Sky {
    Sky::from_bytes(&make::sky_words(seed)).unwrap()
}

/// The strings in relative form, eleven bytes each: the first of each two halves is the symbol,
/// and the second is its inverse. The time mark is left out.
fn read_back(symbols: &[u8]) -> Vec<[u8; 11]> {
    let (strings, []) = symbols.as_chunks::<200>() else {
        panic!("strings of 200 symbols");
    };
    strings.iter().map(one_read_back).collect()
}

fn one_read_back(symbols: &[u8; 200]) -> [u8; 11] {
    let mut bytes = [0; 11];
    for (index, halves) in symbols[..170].chunks(2).enumerate() {
        assert_eq!(halves[0] + halves[1], 1);
        bytes[index / 8] |= halves[0] << (7 - index % 8);
    }
    bytes
}

/// The station after the 75 strings at successive epochs. All of them are taken.
fn heard(sky: &Sky, card: u8, channel: usize, first: u32) -> Station {
    let mut station = Station::default();
    let strings = read_back(&sky.symbols().unwrap());
    assert_eq!(strings.len(), 75);
    for (index, string) in strings.iter().enumerate() {
        let epoch = first + index as u32;
        let taken = station.offer(card, channel, epoch, string).unwrap();
        assert_eq!(taken.m, index % 15 + 1);
        assert_eq!(taken.verdict, Verdict::Clean);
        assert_eq!(taken.polarity, Polarity::Upright);
        let news = match taken.m {
            4 => News::RecordBuilt,
            _ => News::Kept,
        };
        assert_eq!(taken.news, news);
    }
    station
}

#[test]
fn the_book_has_the_24_entries_on_the_day_of_string_5() {
    for seed in 0..10 {
        let sky = sky(seed);
        let [day, _, period, _, _] = sky.string_5;
        let day = 1461 * (period - 1) + day;
        for (card, channel, first) in HEARD {
            let station = heard(&sky, card, channel, first);
            for (slot, words) in (1..).zip(&sky.entries) {
                let entry = station.entry(card, slot).unwrap();
                assert_eq!(entry.words(), words);
                assert_eq!(entry.day, day);
            }
            let summary = Summary {
                count: 24,
                oldest: day,
                newest: day,
            };
            assert_eq!(station.summary(card), Ok(summary));
        }
    }
}

#[test]
fn the_record_and_string_5_are_those_of_the_sky() {
    for seed in 10..20 {
        let sky = sky(seed);
        for (card, channel, first) in HEARD {
            let station = heard(&sky, card, channel, first);
            let record = station.immediate(card, channel).unwrap();
            assert_eq!(record.words, sky.record);
            assert_eq!(record.start, first + 60);
            assert_eq!(station.five_of(card, channel).unwrap(), sky.string_5);
        }
    }
}

/// Five slots more after each of the first four frames.
#[test]
fn the_book_fills_up_by_table_4_1() {
    let sky = sky(20);
    let mut station = Station::default();
    let strings = read_back(&sky.symbols().unwrap());
    for (epoch, string) in (0..).zip(&strings) {
        station.offer(ONE, 7, epoch, string).unwrap();
        let count = station.summary(ONE).unwrap().count;
        let (frame, m) = (epoch as usize / 15, epoch as usize % 15 + 1);
        let pairs = m.saturating_sub(5) / 2;
        assert_eq!(count, (5 * frame + pairs).min(24), "frame {frame}, m {m}");
    }
}

/// The other card's channel hears nothing of it.
#[test]
fn one_channel_hears_a_sky() {
    let station = heard(&sky(21), ONE, 23, 500);
    for channel in 24..48 {
        assert!(station.immediate(TWO, channel).is_err());
    }
    assert_eq!(station.tallies(ONE, 23).unwrap().offered, 75);
    assert_eq!(station.tallies(ONE, 23).unwrap().clean, 75);
}
