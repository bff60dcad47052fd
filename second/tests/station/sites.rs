//! Sites with a station each: what they hear, and their books.

use second::random::SplitMix64;
use second::station::book::Entry;
use second::station::card::{ONE, TWO};
use second::station::Station;
use second::string::NavString;

use crate::calls::{history, Call};
use crate::strings::*;

/// The entries of slots 1 to 24.
pub type Book = Vec<Option<Entry>>;

pub fn book_of(station: &Station) -> Book {
    (1..=24).map(|slot| station.entry(ONE, slot).ok()).collect()
}

/// One history of calls, its channels shared out to so many sites: they hear the same almanacs.
pub fn histories_of<const SITES: usize>(seed: u64) -> [Vec<Call>; SITES] {
    let mut histories = [const { Vec::new() }; SITES];
    for call in history(seed) {
        histories[usize::from(call.channel()) % SITES].push(call);
    }
    histories
}

/// What is answered makes no difference here.
pub fn tell(station: &mut Station, calls: &[Call]) {
    for call in calls {
        let _ = call.answer(station);
    }
}

pub fn station_told(calls: &[Call]) -> Station {
    let mut station = Station::default();
    tell(&mut station, calls);
    station
}

pub fn entry_strings(slot: i64, day: i64, [c, epsilon, t_lambda]: [i64; 3]) -> [NavString; 3] {
    let even = even(6, slot, c, epsilon);
    [string_5(1, day), even, odd(7, t_lambda, 0)]
}

/// Entries of few slots and days that differ in few bits, so that two such books clash in every
/// way; and a record of some satellite.
pub fn station_at_random(random: &mut SplitMix64) -> Station {
    let mut station = Station::default();
    for _ in 0..random.below(8) {
        let slot = random.one_of(&[1, 2, 12, 23, 24]);
        let day = random.one_of(&[1, 2, 1461]);
        let bits = [0; 3].map(|_: i64| random.below(2) as i64);
        let strings = entry_strings(slot, day, bits);
        show(&mut station, random.below(24), &strings);
    }
    let n = 1 + random.below(24) as i64;
    let channel = 24 + random.below(24);
    take_all_by(TWO, &mut station, channel, 100, &strings_1_to_4(0, n));
    station
}

/// The first with the book of the second joined into its own.
pub fn joined(first: &Station, second: &Station) -> Station {
    let mut station = first.clone();
    station.join_book_of(second);
    station
}
