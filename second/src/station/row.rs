//! One channel: its held frame, its immediate record, its tallies.

use super::frame::{start_of, Frame, Place};
use super::reception::{receive, Received};
use super::record::{read_record, strings_of_record, ImmediateRecord, STRINGS_OF_A_RECORD};
use super::tallies::Tallies;
use crate::hamming::Verdict;
use crate::refusal::Refusal;
use crate::relative::Polarity;
use crate::string::NavString;

/// A channel after its reset holds nothing.
#[derive(Clone, Debug, Default, PartialEq, Eq)]
pub struct Row {
    pub frame: Option<Frame>,
    pub record: Option<ImmediateRecord>,
    pub tallies: Tallies,
}

/// The answer to an offer that is not refused.
#[derive(Clone, Copy, Debug, PartialEq, Eq)]
pub struct Taken {
    pub m: usize,
    pub verdict: Verdict,
    pub news: News,
    pub polarity: Polarity,
}

#[derive(Clone, Copy, Debug, PartialEq, Eq)]
pub enum News {
    AlreadyHeld,
    Kept,
    RecordBuilt,
    RecordOutOfRange,
}

impl Row {
    /// Takes or refuses a string, and counts it.
    pub fn offer(&mut self, epoch: u32, symbols: &[u8]) -> Result<Taken, Refusal> {
        let answer = self.take(epoch, symbols);
        self.tallies.count(answer.map(|taken| taken.verdict));
        answer
    }

    /// Order of refusals: 2 to 9, and 31 to 33 in the position of 3. Nothing that is
    /// kept depends on the polarity.
    fn take(&mut self, epoch: u32, symbols: &[u8]) -> Result<Taken, Refusal> {
        let Received {
            string,
            verdict,
            polarity,
        } = receive(symbols)?;
        let m = string.require_m()?;
        let start = start_of(epoch, m)?;
        let news = match self.place_of(start, &string)? {
            Place::HeldAlready => News::AlreadyHeld,
            Place::HeldFrame => self.store(start, string),
            Place::NewFrame => {
                self.frame = None;
                self.store(start, string)
            }
        };
        Ok(Taken {
            m,
            verdict,
            news,
            polarity,
        })
    }

    /// String 5 of the frame that the record was read from: "once the row holds another frame
    /// its string 5 counts as missing".
    pub fn string_5_of_record(&self) -> Option<&NavString> {
        let (record, frame) = (self.record.as_ref()?, self.frame.as_ref()?);
        match frame.start() == record.start {
            true => frame.string(5),
            false => None,
        }
    }

    /// "A first string starts one", a frame.
    fn place_of(&self, start: u32, string: &NavString) -> Result<Place, Refusal> {
        match &self.frame {
            None => Ok(Place::NewFrame),
            Some(frame) => frame.place_of(start, string),
        }
    }

    /// "When strings 1..4 of the held frame are all present and their words are in
    /// range, they become the channel's immediate record, at the string that
    /// completes them. Out of range, the former record stays."
    fn store(&mut self, start: u32, string: NavString) -> News {
        let frame = self.frame.get_or_insert_with(|| Frame::begun_at(start));
        frame.store(string);
        if !STRINGS_OF_A_RECORD.contains(&string.m()) {
            return News::Kept;
        }
        let Some(strings) = strings_of_record(frame) else {
            return News::Kept;
        };
        let Ok(record) = read_record(start, &strings) else {
            return News::RecordOutOfRange;
        };
        self.record = Some(record);
        News::RecordBuilt
    }
}
