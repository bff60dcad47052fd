//! The almanac entries that a held frame shows.

use std::ops::RangeInclusive;

use super::book::Entry;
use super::frame::Frame;
use crate::string::NavString;
use crate::words::kinds::{ALMANAC_DAY, ALMANAC_SLOT, EVEN, FOUR_YEAR_PERIOD, ODD, STRING_5};
use crate::words::read_words;

/// "Pairs 6-7 to 12-13 need no frame number."
const PAIRS_OF_EVERY_FRAME: [(usize, usize); 4] = [(6, 7), (8, 9), (10, 11), (12, 13)];
const LAST_PAIR: (usize, usize) = (14, 15);
const FRAMES_WITH_THE_LAST_PAIR: RangeInclusive<usize> = 1..=4;

/// Table 4.1: the first satellite of frames 1 to 5.
const FIRST_SLOTS: [i64; 5] = [1, 6, 11, 16, 21];

pub const DAYS_IN_FOUR_YEARS: i64 = 1461;

/// All entries with their slots. "An entry is shown when a held frame has both
/// halves of a pair and string 5, all words of the three in range, and N4 at least 1."
pub fn shown_entries(frame: &Frame) -> Vec<(usize, Entry)> {
    let Some(day) = frame.string(5).and_then(day_of) else {
        return Vec::new();
    };
    pairs(frame)
        .into_iter()
        .filter_map(|(even, odd)| entry(day, frame.string(even)?, frame.string(odd)?))
        .collect()
}

/// "Its day is 1461 x (N4-1) + NA." None where a word is out of range or N4 is 0.
pub fn day_of(string_5: &NavString) -> Option<i64> {
    read_words(&STRING_5, string_5).ok()?;
    let day = ALMANAC_DAY.read(string_5).ok()?;
    let period = FOUR_YEAR_PERIOD.read(string_5).ok()?;
    if period < 1 {
        return None;
    }
    Some(DAYS_IN_FOUR_YEARS * (period - 1) + day)
}

/// "In frames 1..4, strings 14 and 15 are an almanac pair; in frame 5, or with the
/// number unknown, they are no pair."
fn pairs(frame: &Frame) -> Vec<(usize, usize)> {
    let mut pairs = PAIRS_OF_EVERY_FRAME.to_vec();
    if frame_number(frame).is_some_and(|number| FRAMES_WITH_THE_LAST_PAIR.contains(&number)) {
        pairs.push(LAST_PAIR);
    }
    pairs
}

/// "String 6 of the held frame with nA 1, 6, 11, 16 or 21 means frame 1..5."
pub fn frame_number(frame: &Frame) -> Option<usize> {
    let slot = ALMANAC_SLOT.read(frame.string(6)?).ok()?;
    let index = FIRST_SLOTS.iter().position(|&first| first == slot)?;
    Some(index + 1)
}

/// The entry of a pair and its slot. None where a word of the two is out of range.
fn entry(day: i64, even: &NavString, odd: &NavString) -> Option<(usize, Entry)> {
    read_words(&EVEN, even).ok()?;
    read_words(&ODD, odd).ok()?;
    let slot = ALMANAC_SLOT.read(even).ok()? as usize;
    Some((slot, Entry::of(day, even, odd)))
}
