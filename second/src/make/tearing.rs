//! What befalls the bytes of a file on a memory card.

use std::ops::Range;

use crate::random::SplitMix64;

/// A card that holds nothing reads as zeros or as ones; 3, too, fills holes here, since it is
/// the tag of a remark.
const FILLINGS: [u8; 3] = [0, 0xFF, 3];

/// The longest of each kind.
const CHANGED: usize = 4;
const REMOVED: usize = 60;
const INSERTED: usize = 40;
const HOLE: usize = 2_000;
const NOISE: usize = 700;

/// One of the five, somewhere in the bytes.
pub fn tear(random: &mut SplitMix64, bytes: &mut Vec<u8>) {
    match random.below(5) {
        0 => change(random, bytes),
        1 => {
            let range = some_range(random, bytes, REMOVED);
            bytes.drain(range);
        }
        2 => insert(random, bytes),
        3 => {
            let range = some_range(random, bytes, HOLE);
            let filling = random.one_of(&FILLINGS);
            bytes[range].fill(filling);
        }
        _ => {
            let range = some_range(random, bytes, NOISE);
            bytes[range].fill_with(|| random.number() as u8);
        }
    }
}

/// A few bytes, each somewhere.
fn change(random: &mut SplitMix64, bytes: &mut [u8]) {
    for _ in 0..=random.below(CHANGED) {
        let place = random.below(bytes.len());
        bytes[place] = random.number() as u8;
    }
}

fn insert(random: &mut SplitMix64, bytes: &mut Vec<u8>) {
    let place = random.below(bytes.len() + 1);
    let count = 1 + random.below(INSERTED);
    let more = random.bytes(count);
    bytes.splice(place..place, more);
}

/// At least one byte of them, and no more than so many.
fn some_range(random: &mut SplitMix64, bytes: &[u8], longest: usize) -> Range<usize> {
    let first = random.below(bytes.len());
    let count = 1 + random.below(longest.min(bytes.len() - first));
    first..first + count
}

/// Bytes among which no field begins: no tag is there.
pub fn foreign(random: &mut SplitMix64, count: usize) -> Vec<u8> {
    let mut bytes = random.bytes(count);
    for byte in &mut bytes {
        if (1..=3).contains(byte) {
            *byte = 0;
        }
    }
    bytes
}
