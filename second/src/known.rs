//! Known strings: those of the paper, and one frame received from a satellite.

use crate::string::{NavString, BYTES};

/// String A: m = 1, data zero, encoded.
pub const A: [u8; BYTES] = [0x08, 0, 0, 0, 0, 0, 0, 0, 0, 0x06, 0x80];

/// String B: A in relative form, and the same with all 85 symbols inverted.
pub const B: [u8; BYTES] = [
    0x0F, 0xFF, 0xFF, 0xFF, 0xFF, 0xFF, 0xFF, 0xFF, 0xFF, 0xFB, 0x00,
];
pub const B_INVERTED: [u8; BYTES] = [0xF0, 0, 0, 0, 0, 0, 0, 0, 0, 0x04, 0xF8];

/// The flips of A that the paper names under "Known strings and edges".
pub const FLIPS_OF_A: [&[usize]; 7] =
    [&[9], &[85], &[5], &[8], &[9, 10], &[85, 9, 8], &[9, 10, 12]];

/// Three flips that the check takes for one flip of bit 85: the positions of
/// bits 81, 3 and 8 (80, 4 and 0) add up to bit 85's position, 84.
pub const FLIPS_TAKEN_FOR_BIT_85: [usize; 3] = [81, 3, 8];

/// Flips that damage any encoded string: by 31, by 32 and by 33. The last three add
/// up to 87, place 88. Bit 85 is in none of them: it is not on the line.
pub const FLIPS_THAT_DAMAGE: [(u8, &[usize]); 3] = [(31, &[8]), (32, &[9, 10]), (33, &[84, 8, 3])];

/// The same in the check bits alone: m, data and bit 85 stay. The last three add up to
/// 97, place 98.
pub const FLIPS_OF_CHECK_BITS: [(u8, &[usize]); 3] = [(31, &[8]), (32, &[2, 1]), (33, &[7, 6, 1])];

/// A with the former flips, in relative form.
pub const B_DAMAGED: [(u8, [u8; BYTES]); 3] = [
    (
        31,
        [
            0x0F, 0xFF, 0xFF, 0xFF, 0xFF, 0xFF, 0xFF, 0xFF, 0xFF, 0xFC, 0xF8,
        ],
    ),
    (
        32,
        [
            0x0F, 0xFF, 0xFF, 0xFF, 0xFF, 0xFF, 0xFF, 0xFF, 0xFF, 0xEB, 0x00,
        ],
    ),
    (33, [0x70, 0, 0, 0, 0, 0, 0, 0, 0, 0x03, 0x38]),
];

const RECEIVED_FRAME: &[u8] = include_bytes!("../../data/received-frame.bin");

pub fn a() -> NavString {
    NavString::from_bytes(&A).expect("A has eleven bytes and no padding set")
}

/// The fifteen strings of the received frame, plain.
pub fn received_frame() -> Vec<NavString> {
    let strings = RECEIVED_FRAME.chunks(BYTES).map(NavString::from_bytes);
    let strings: Result<_, _> = strings.collect();
    strings.expect("a frame of whole strings")
}
