//! Requests to `trial`: one byte op, two bytes big-endian length, then that many
//! bytes, one request after another.

pub mod card;

pub use crate::framing::append;
use crate::framing::split_first;
use crate::words::kinds::{Kind, KINDS};

/// What a request asks for, by its op.
pub const FROM_RELATIVE: u8 = 1;
pub const TO_RELATIVE: u8 = 2;
pub const CHECK: u8 = 3;
pub const READ: u8 = 4;
pub const WRITE: u8 = 5;
pub const OFFER: u8 = 6;
pub const RESET: u8 = 7;
pub const IMMEDIATE: u8 = 8;
pub const ENTRY: u8 = 9;
pub const TALLIES: u8 = 10;
pub const HEALTH: u8 = 11;
pub const FRESH: u8 = 12;
pub const BLOCK: u8 = 13;
pub const SUMMARY: u8 = 14;
pub const WORD_AS_FLOAT: u8 = 15;
pub const FOUR_STRINGS: u8 = 16;
pub const SALVAGE: u8 = 17;
pub const NAVIGATION: u8 = 18;
pub const SKY: u8 = 19;
pub const CHIP: u8 = 20;
pub const OTHER_STATION: u8 = 21;
pub const JOIN: u8 = 22;
pub const ENTRY_WORDS: u8 = 23;
pub const FIVE_OF: u8 = 24;
pub const CARRIER: u8 = 25;

#[derive(Clone, Copy, Debug, PartialEq, Eq)]
pub struct Request<'a> {
    pub op: u8,
    pub payload: &'a [u8],
}

/// One step through the input: a whole request, or one cut short at the end with
/// the count of its bytes from the op on.
#[derive(Clone, Copy, Debug, PartialEq, Eq)]
pub enum Piece<'a> {
    Whole(Request<'a>),
    Short(usize),
}

/// The pieces of an input, in order.
pub struct Pieces<'a> {
    rest: &'a [u8],
}

pub fn pieces(input: &[u8]) -> Pieces<'_> {
    Pieces { rest: input }
}

/// The requests of an input, without one that is cut short.
pub fn whole_requests(input: &[u8]) -> impl Iterator<Item = Request<'_>> {
    pieces(input).filter_map(|piece| match piece {
        Piece::Whole(request) => Some(request),
        Piece::Short(_) => None,
    })
}

impl<'a> Iterator for Pieces<'a> {
    type Item = Piece<'a>;

    fn next(&mut self) -> Option<Piece<'a>> {
        if self.rest.is_empty() {
            return None;
        }
        let Some((op, payload, rest)) = split_first(self.rest) else {
            let count = self.rest.len();
            self.rest = &[];
            return Some(Piece::Short(count));
        };
        self.rest = rest;
        Some(Piece::Whole(Request { op, payload }))
    }
}

/// "Kinds: 1 to 5 are strings 1 to 5, 6 even, 7 odd, 8 string 14 of frame 5."
pub fn kind_numbered(number: u8) -> Option<&'static Kind> {
    let index = usize::from(number).checked_sub(1)?;
    KINDS.get(index).copied()
}

pub fn number_of(kind: &Kind) -> u8 {
    let index = KINDS.iter().position(|&other| other == kind);
    index.expect("one of the eight kinds") as u8 + 1
}

/// A word's value travels as four bytes: two's complement, big-endian.
pub const BYTES_OF_A_VALUE: usize = 4;

pub fn values_from_bytes(bytes: &[u8]) -> Vec<i64> {
    let (values, _) = bytes.as_chunks::<BYTES_OF_A_VALUE>();
    values
        .iter()
        .map(|&value| i64::from(i32::from_be_bytes(value)))
        .collect()
}

pub fn values_to_bytes(values: &[i64]) -> Vec<u8> {
    let fits = |&value| i32::try_from(value).expect("a value has four bytes");
    values
        .iter()
        .flat_map(|value| fits(value).to_be_bytes())
        .collect()
}

/// A file to be salvaged has at most so many bytes here.
pub const LONGEST_FILE: usize = 96;

/// A navigation record has at most so many bytes of room here.
pub const LARGEST_ROOM: u16 = 1024;

/// And the symbols of a sky so many.
pub const LARGEST_ROOM_OF_A_SKY: u16 = 16_000;

/// Four strings, each after its length in one byte, and nothing behind them.
pub fn split_strings(mut payload: &[u8]) -> Option<[&[u8]; 4]> {
    let mut strings = [&[][..]; 4];
    for string in &mut strings {
        let (&length, rest) = payload.split_first()?;
        (*string, payload) = rest.split_at_checked(usize::from(length))?;
    }
    payload.is_empty().then_some(strings)
}

pub fn join_strings(strings: &[Vec<u8>]) -> Vec<u8> {
    let mut payload = Vec::new();
    for string in strings {
        payload.push(u8::try_from(string.len()).expect("one byte of length: at most 255"));
        payload.extend(string);
    }
    payload
}
