//! Makes inputs: requests for `trial`, records for the listing and the navigation file, a long
//! block, strings for the logger, torn files and the words of a sky, from a seed; and what two
//! cards hear second by second.

mod card;
mod damage;
mod faults;
mod feed;
mod field_feed;
mod hearing;
mod logger;
mod navigation;
mod numbers;
mod salvage;
mod sample;
mod satellite;
mod sky;
mod station;
mod strings;
mod tearing;
mod torn;
mod torn_edges;
mod words;

use std::io::{self, Write};

use crate::listing::Record;
use crate::random::SplitMix64;
use crate::request;
use crate::station::card::CHANNELS_OF_A_CARD;
use crate::string::BYTES;
use feed::Feed;

const RIGHT_ROOM: u8 = BYTES as u8;
const WRONG_ROOMS: [u8; 8] = [0, 1, 10, 12, 22, 127, 128, 255];
const WRONG_LENGTHS: [usize; 13] = [0, 1, 2, 8, 9, 10, 12, 13, 16, 22, 255, 256, 300];

/// The same seed always gives the same bytes. A part added later comes last, so
/// that the others stay as they were.
pub fn trial_input(seed: u64) -> Vec<u8> {
    made_of(
        seed,
        &[
            strings::add_all,
            words::add_all,
            station::add_all,
            Input::add_unknown_ops,
            station::entry_words::add_all,
            damage::add_all,
            station::polarity::add_all,
            station::health_flags::add_all,
            station::blocks::add_all,
            station::summary::add_all,
            numbers::add_all,
            salvage::add_all,
            station::cards::add_all,
            station::navigation::add_all,
            sky::add_all,
            station::sites::add_all,
        ],
    )
}

/// Requests 1 to 5 alone, for a `trial` that has no station.
pub fn words_input(seed: u64) -> Vec<u8> {
    let parts = [strings::add_all, words::add_all, Input::add_unknown_ops];
    made_of(seed, &parts)
}

/// The parts one after another; then a request cut short, which can only be the
/// last.
fn made_of(seed: u64, parts: &[fn(&mut Input)]) -> Vec<u8> {
    let mut input = Input::new(seed);
    for add_all in parts {
        add_all(&mut input);
    }
    input.add_cut_short();
    input.bytes
}

/// So many records, written as they are made.
pub fn write_listing(seed: u64, count: u64, output: &mut impl Write) -> io::Result<()> {
    let mut feed = Feed::new(seed, CHANNELS_OF_A_CARD as u8);
    for _ in 0..count {
        let record = feed.next().expect("an endless feed");
        output.write_all(&record.to_bytes())?;
    }
    Ok(())
}

/// So many requests on two stations, written as they are made.
pub fn write_calls(seed: u64, count: u64, output: &mut impl Write) -> io::Result<()> {
    let mut calls = station::calls::Calls::new(seed);
    (0..count).try_for_each(|_| output.write_all(&calls.next_request()))
}

/// So many fields, and one that is refused.
pub fn block(seed: u64, count: u64) -> Vec<u8> {
    field_feed::long_block(seed, count)
}

/// Plain strings for the logger.
pub fn logger_input(seed: u64) -> Vec<u8> {
    logger::strings(seed)
}

/// A torn file of so many bytes, written as it is made.
pub fn write_torn(seed: u64, count: u64, output: &mut impl Write) -> io::Result<()> {
    torn::write_torn(seed, count, output)
}

/// A torn file with something across each edge of a window.
pub fn torn_edges(seed: u64) -> Vec<u8> {
    torn_edges::file(seed)
}

/// Records for the navigation file, and a few bytes of one more.
pub fn navigation_input(seed: u64) -> Vec<u8> {
    navigation::capture(seed)
}

/// The words of a sky that is not refused.
pub fn sky_words(seed: u64) -> Vec<u8> {
    sky::words(seed)
}

/// 65,540 repaired strings on one channel, without a seed.
pub fn tallies_input() -> Vec<u8> {
    without_a_seed(station::tallies::add_all)
}

/// Tallies that reach their limit, for a station that is near it.
pub fn limit_input() -> Vec<u8> {
    without_a_seed(station::limit::add_all)
}

pub fn sample_for_trial() -> Vec<u8> {
    without_a_seed(sample::add_all)
}

/// The blocks of two cards, second by second.
pub fn card() -> Vec<u8> {
    card::file()
}

/// The same blocks as requests, and questions.
pub fn card_for_trial() -> Vec<u8> {
    without_a_seed(card::add_all)
}

fn without_a_seed(add_all: fn(&mut Input)) -> Vec<u8> {
    let mut input = Input::new(0);
    add_all(&mut input);
    input.bytes
}

pub fn sample_for_listing() -> Vec<u8> {
    let records = sample::records();
    records.iter().flat_map(Record::to_bytes).collect()
}

/// An input being made, and the random numbers it is made of.
struct Input {
    bytes: Vec<u8>,
    random: SplitMix64,
}

impl Input {
    fn new(seed: u64) -> Input {
        Input {
            bytes: Vec::new(),
            random: SplitMix64::new(seed),
        }
    }

    fn request(&mut self, op: u8, payload: &[u8]) {
        request::append(&mut self.bytes, op, payload);
    }

    /// No op is 0, and the numbers from 64 up are far from those in use.
    fn add_unknown_ops(&mut self) {
        for op in [0, 64, 99, 127, 128].into_iter().chain(200..=255) {
            let length = self.random.below(16);
            let payload = self.random.bytes(length);
            self.request(op, &payload);
            self.request(op, &[]);
        }
    }

    /// A check that promises twelve bytes and brings seven.
    fn add_cut_short(&mut self) {
        self.bytes.extend([request::CHECK, 0, 12]);
        self.bytes.extend([11, 0x08, 0, 0, 0, 0, 0]);
    }
}
