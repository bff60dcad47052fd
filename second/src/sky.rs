//! A sky for the test bench: the words of a satellite and of its almanac, and the superframe
//! that is made of them.

pub mod line;

use crate::refusal::Refusal;
use crate::request::{values_from_bytes, values_to_bytes, BYTES_OF_A_VALUE};
use crate::station::book::SLOTS;
use crate::station::frame::STRINGS_IN_A_FRAME;
use crate::station::record::by_string;
use crate::string::NavString;
use crate::words;
use crate::words::kinds::{kind_of, Kind, EVEN, FRAME_5_STRING_14, ODD, STRING_5};
use line::{symbols_of, SYMBOLS_OF_A_STRING};

pub const FRAMES_IN_A_SUPERFRAME: usize = 5;

/// Strings 6-7 to 14-15. Table 4.1: so many satellites in each of frames 1 to 4.
pub const PAIRS_IN_A_FRAME: usize = 5;

/// The last frame has one satellite less.
const LAST_FRAME: usize = FRAMES_IN_A_SUPERFRAME;

/// Strings of a superframe, and the symbols that they are sent as.
pub const STRINGS: usize = FRAMES_IN_A_SUPERFRAME * STRINGS_IN_A_FRAME;
pub const SYMBOLS: usize = STRINGS * SYMBOLS_OF_A_STRING;

/// The even half of an entry has seven words, and the odd half five beside l.
pub const WORDS_OF_AN_EVEN_HALF: usize = 7;
pub const WORDS_OF_AN_ENTRY: usize = 12;

/// Where nA stands in an entry, and N4 and l in string 5.
pub const SLOT_IN_AN_ENTRY: usize = 2;
pub const PERIOD_IN_STRING_5: usize = 2;
pub const L_IN_STRING_5: usize = 4;

/// The words of a superframe: 322 in all, in the order of the fields.
#[derive(Clone, Debug, PartialEq, Eq)]
pub struct Sky {
    /// Those of strings 1 to 4.
    pub record: [i64; 26],
    pub string_5: [i64; 5],
    /// B1, B2 and KP.
    pub corrections: [i64; 3],
    /// The words of both halves, without l: it is that of string 5.
    pub entries: [[i64; WORDS_OF_AN_ENTRY]; SLOTS],
}

/// "322 words of four bytes."
pub const WORDS: usize = 26 + 5 + 3 + WORDS_OF_AN_ENTRY * SLOTS;
pub const BYTES: usize = BYTES_OF_A_VALUE * WORDS;

impl Sky {
    /// None where they are not so many bytes.
    pub fn from_bytes(bytes: &[u8]) -> Option<Sky> {
        match bytes.len() {
            BYTES => Sky::from_words(&values_from_bytes(bytes)),
            _ => None,
        }
    }

    /// None where they are not so many words.
    pub fn from_words(words: &[i64]) -> Option<Sky> {
        let (&record, rest) = words.split_first_chunk()?;
        let (&string_5, rest) = rest.split_first_chunk()?;
        let (&corrections, rest) = rest.split_first_chunk()?;
        let (entries, []) = rest.as_chunks() else {
            return None;
        };
        Some(Sky {
            record,
            string_5,
            corrections,
            entries: entries.try_into().ok()?,
        })
    }

    pub fn words(&self) -> Vec<i64> {
        let entries = self.entries.as_flattened();
        [&self.record[..], &self.string_5, &self.corrections, entries].concat()
    }

    pub fn to_bytes(&self) -> Vec<u8> {
        values_to_bytes(&self.words())
    }

    /// All symbols one after another, each of them 0 or 1. Order of refusals: 12, 18, 10.
    pub fn symbols_in(&self, room: usize) -> Result<Vec<u8>, Refusal> {
        match room {
            SYMBOLS => self.symbols(),
            _ => Err(Refusal::Room),
        }
    }

    /// Order of refusals: 18, 10.
    pub fn symbols(&self) -> Result<Vec<u8>, Refusal> {
        let strings = self.strings()?;
        Ok(strings.iter().flat_map(symbols_of).collect())
    }

    /// The strings of a superframe, plain. RANGE names the first that fails by its place, 1 to
    /// 75. Order of refusals: 18, 10.
    pub fn strings(&self) -> Result<Vec<NavString>, Refusal> {
        self.require_order()?;
        (1..=STRINGS).map(|place| self.string(place)).collect()
    }

    /// 18: "when the entries are not slots 1..24 in order".
    fn require_order(&self) -> Result<(), Refusal> {
        let slots = self.entries.iter().map(|entry| entry[SLOT_IN_AN_ENTRY]);
        match slots.eq(1..=SLOTS as i64) {
            true => Ok(()),
            false => Err(Refusal::Order),
        }
    }

    /// "10 with the string's place 1..75, also for N4 = 0."
    fn string(&self, place: usize) -> Result<NavString, Refusal> {
        let (frame, m) = frame_and_m(place);
        let (kind, values) = self.kind_and_words(frame, m);
        let has_no_day = *kind == STRING_5 && values[PERIOD_IN_STRING_5] == 0;
        match words::write(kind, m, &values) {
            Ok(string) if !has_no_day => Ok(string),
            _ => Err(Refusal::Range { place }),
        }
    }

    /// What string m of a frame is, and one value for each of its words.
    fn kind_and_words(&self, frame: usize, m: usize) -> (&'static Kind, Vec<i64>) {
        match (m, frame) {
            (1..=4, _) => (kind_of(m), by_string(&self.record)[m - 1].to_vec()),
            (5, _) => (&STRING_5, self.string_5.to_vec()),
            (14, LAST_FRAME) => (&FRAME_5_STRING_14, self.corrections.to_vec()),
            (15, LAST_FRAME) => (&ODD, self.with_l(&[0; 5])),
            _ => self.half(frame, m),
        }
    }

    /// "6-7 to 14-15 of frame f the entries 5(f-1)+1 to 5f."
    fn half(&self, frame: usize, m: usize) -> (&'static Kind, Vec<i64>) {
        let index = PAIRS_IN_A_FRAME * (frame - 1) + (m - 6) / 2;
        let (even, odd) = self.entries[index].split_at(WORDS_OF_AN_EVEN_HALF);
        match m % 2 {
            0 => (&EVEN, even.to_vec()),
            _ => (&ODD, self.with_l(odd)),
        }
    }

    /// "Every l as in string 5 but in string 3."
    fn with_l(&self, words_of_odd: &[i64]) -> Vec<i64> {
        [words_of_odd, &[self.string_5[L_IN_STRING_5]]].concat()
    }
}

/// The frame, 1 to 5, and the string of it, 1 to 15, at a place of the superframe, 1 to 75.
fn frame_and_m(place: usize) -> (usize, usize) {
    let index = place - 1;
    (
        index / STRINGS_IN_A_FRAME + 1,
        index % STRINGS_IN_A_FRAME + 1,
    )
}

/// All symbols of the sky with these words, or a line that says why there are none.
pub fn answer_input(input: &[u8]) -> Vec<u8> {
    let Some(sky) = Sky::from_bytes(input) else {
        return format!("short {}\n", input.len()).into_bytes();
    };
    let symbols = sky.symbols();
    symbols.unwrap_or_else(|refusal| format!("{refusal}\n").into_bytes())
}
