//! The immediate record: strings 1 to 4 of one frame.

use super::frame::Frame;
use crate::refusal::Refusal;
use crate::string::NavString;
use crate::words::kinds::{
    Kind, B, L_OF_STRING_3, SATELLITE, SATELLITE_TYPE, STRING_1, STRING_2, STRING_3, STRING_4,
};
use crate::words::read_words;

/// The string numbers that a record is made of.
pub const STRINGS_OF_A_RECORD: [usize; 4] = [1, 2, 3, 4];

pub static KINDS_OF_A_RECORD: [&Kind; 4] = [&STRING_1, &STRING_2, &STRING_3, &STRING_4];

/// "The user navigation equipment analyzes the only one MSB of this word."
const TOP_BIT_OF_B: i64 = 0b100;

/// The code of M for a GLONASS satellite, which sends no l.
const TYPE_WITHOUT_L: i64 = 0b00;

#[derive(Clone, Debug, PartialEq, Eq)]
pub struct ImmediateRecord {
    /// The start of the frame that it was read from.
    pub start: u32,
    /// The words of the four strings in the paper's order, 26 in all.
    pub words: Vec<i64>,
    /// n, the satellite that sends.
    pub satellite: usize,
    /// The satellite calls itself unfit, by the top bit of B or by l.
    pub is_unfit: bool,
}

/// The strings of a record, once a frame has all four.
pub fn strings_of_record(frame: &Frame) -> Option<[NavString; 4]> {
    let [first, second, third, fourth] = STRINGS_OF_A_RECORD.map(|m| frame.string(m).copied());
    Some([first?, second?, third?, fourth?])
}

/// From the strings of the frame with this start. RANGE where tk or tb is out of range.
pub fn read_record(start: u32, strings: &[NavString; 4]) -> Result<ImmediateRecord, Refusal> {
    let mut words = Vec::new();
    for (kind, string) in KINDS_OF_A_RECORD.iter().zip(strings) {
        words.extend(read_words(kind, string)?);
    }
    let [_, second, third, fourth] = strings;
    Ok(ImmediateRecord {
        start,
        words,
        satellite: SATELLITE.read(fourth)? as usize,
        is_unfit: is_unfit_by_b(second) || is_unfit_by_l(third, fourth),
    })
}

/// The 26 words of a record, those of each string apart.
pub fn by_string(words: &[i64]) -> [&[i64]; 4] {
    let mut rest = words;
    KINDS_OF_A_RECORD.map(|kind| {
        let (own, behind) = rest.split_at(kind.words.len());
        rest = behind;
        own
    })
}

fn is_unfit_by_b(second: &NavString) -> bool {
    B.value_in(second) & TOP_BIT_OF_B != 0
}

/// "With M = 00, bit 65 of string 3 is a reserved bit and plays no part in health";
/// "other codes of M are read as 01".
fn is_unfit_by_l(third: &NavString, fourth: &NavString) -> bool {
    match SATELLITE_TYPE.value_in(fourth) {
        TYPE_WITHOUT_L => false,
        _ => L_OF_STRING_3.value_in(third) == 1,
    }
}
