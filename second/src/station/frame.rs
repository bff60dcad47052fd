//! The strings held of one frame.

use crate::refusal::Refusal;
use crate::string::{NavString, DATA};

pub const STRINGS_IN_A_FRAME: usize = 15;

/// "Its frame start is epoch - (m-1)"; EARLY: "epoch below m-1".
pub fn start_of(epoch: u32, m: usize) -> Result<u32, Refusal> {
    epoch.checked_sub(m as u32 - 1).ok_or(Refusal::Early)
}

#[derive(Clone, Debug, PartialEq, Eq)]
pub struct Frame {
    start: u32,
    /// String m, if it has come, is `strings[m - 1]`.
    strings: [Option<NavString>; STRINGS_IN_A_FRAME],
}

/// Where a string that is offered belongs.
#[derive(Clone, Copy, Debug, PartialEq, Eq)]
pub enum Place {
    HeldFrame,
    HeldAlready,
    NewFrame,
}

impl Frame {
    pub fn begun_at(start: u32) -> Frame {
        Frame {
            start,
            strings: [None; STRINGS_IN_A_FRAME],
        }
    }

    pub fn start(&self) -> u32 {
        self.start
    }

    pub fn string(&self, m: usize) -> Option<&NavString> {
        self.strings[m - 1].as_ref()
    }

    pub fn store(&mut self, string: NavString) {
        self.strings[string.m() - 1] = Some(string);
    }

    /// Order of refusals: 7, 8, 9. "A string with a later start by 15 or more
    /// replaces the held frame."
    pub fn place_of(&self, start: u32, string: &NavString) -> Result<Place, Refusal> {
        let later_by = start.checked_sub(self.start).ok_or(Refusal::Stale)?;
        match later_by {
            0 => self.place_within(string),
            1..=14 => Err(Refusal::OffBeat),
            15.. => Ok(Place::NewFrame),
        }
    }

    /// CONFLICT: "same start and m held, bits 80..9 differ".
    fn place_within(&self, string: &NavString) -> Result<Place, Refusal> {
        match self.string(string.m()) {
            None => Ok(Place::HeldFrame),
            Some(held) if held.number(DATA) == string.number(DATA) => Ok(Place::HeldAlready),
            Some(_) => Err(Refusal::Conflict),
        }
    }
}
