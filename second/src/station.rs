//! The station: the channels of two cards and one almanac book.

pub mod almanac;
pub mod book;
pub mod card;
pub mod frame;
pub mod reception;
pub mod record;
pub mod row;
pub mod tallies;

use std::array;

use crate::refusal::Refusal;
use crate::words::kinds::STRING_5;
use almanac::shown_entries;
use book::{Book, Entry, Summary};
use card::{reach_book, reach_row, CHANNELS_OF_A_CARD};
use record::ImmediateRecord;
use row::{News, Row, Taken};
use tallies::Tallies;

/// Those of card one, then those of card two.
pub const CHANNELS: usize = 2 * CHANNELS_OF_A_CARD;

/// "Every offer, reset, query and block names the asking card", by a number that may be none.
#[derive(Clone, Debug, PartialEq, Eq)]
pub struct Station {
    rows: [Row; CHANNELS],
    book: Book,
}

/// What is known of a channel's satellite.
#[derive(Clone, Copy, Debug, PartialEq, Eq)]
pub enum Health {
    Unknown,
    Usable,
    NotUsable,
}

/// "A fresh station is all empty."
impl Default for Station {
    fn default() -> Station {
        Station {
            rows: array::from_fn(|_| Row::default()),
            book: Book::default(),
        }
    }
}

impl Station {
    /// Fresh, but that every tally of every channel has this count.
    pub fn with_tallies_at(count: u32) -> Station {
        let mut station = Station::default();
        for row in &mut station.rows {
            row.tallies = Tallies::all_at(count);
        }
        station
    }

    /// Order of refusals: 16, 1, 15, then 2 to 9, and 31 to 33 in the position of 3.
    pub fn offer(
        &mut self,
        card: u8,
        channel: usize,
        epoch: u32,
        symbols: &[u8],
    ) -> Result<Taken, Refusal> {
        let taken = self.row_to_change(card, channel)?.offer(epoch, symbols)?;
        if taken.news != News::AlreadyHeld {
            self.bring_to_book(channel);
        }
        Ok(taken)
    }

    /// "Each string newly stored brings all entries that its frame then shows to
    /// the book."
    fn bring_to_book(&mut self, channel: usize) {
        let entries = self.rows[channel].frame.iter().flat_map(shown_entries);
        for (slot, entry) in entries {
            self.book.bring(slot, entry);
        }
    }

    /// "A reset empties the row, record and tallies; the book stays." Order of refusals: 16,
    /// 1, 15.
    pub fn reset(&mut self, card: u8, channel: usize) -> Result<(), Refusal> {
        *self.row_to_change(card, channel)? = Row::default();
        Ok(())
    }

    /// "Two sites exchange their books": this one's takes what the other's has. No row changes,
    /// and no card is named.
    pub fn join_book_of(&mut self, other: &Station) {
        self.book.join(&other.book);
    }

    /// Order of refusals: 16, 1, 15, 13.
    pub fn immediate(&self, card: u8, channel: usize) -> Result<&ImmediateRecord, Refusal> {
        let record = &self.row(card, channel)?.record;
        record.as_ref().ok_or(Refusal::Nothing)
    }

    /// The words of string 5 of the frame that the record was read from, in range or not. Order
    /// of refusals: 16, 1, 15, 13.
    pub fn five_of(&self, card: u8, channel: usize) -> Result<Vec<i64>, Refusal> {
        let string = self.row(card, channel)?.string_5_of_record();
        let string = string.ok_or(Refusal::Nothing)?;
        let words = STRING_5.words.iter();
        Ok(words.map(|word| word.value_in(string)).collect())
    }

    /// Order of refusals: 16, 14, 13.
    pub fn entry(&self, card: u8, slot: usize) -> Result<Entry, Refusal> {
        reach_book(card)?;
        self.book.entry(slot)
    }

    /// Refused by 16 alone.
    pub fn summary(&self, card: u8) -> Result<Summary, Refusal> {
        reach_book(card)?;
        Ok(self.book.summary())
    }

    /// Order of refusals: 16, 1, 15.
    pub fn tallies(&self, card: u8, channel: usize) -> Result<Tallies, Refusal> {
        Ok(self.row(card, channel)?.tallies)
    }

    /// "Without a record, or without a book entry for its n, a channel's satellite
    /// is unknown." Otherwise it is usable if the record does not call it unfit and
    /// the entry has C = 1, as in Table 5.1, "and not usable if either fails". Order of
    /// refusals: 16, 1, 15.
    pub fn health(&self, card: u8, channel: usize) -> Result<Health, Refusal> {
        let Some(record) = &self.row(card, channel)?.record else {
            return Ok(Health::Unknown);
        };
        let Ok(entry) = self.book.entry(record.satellite) else {
            return Ok(Health::Unknown);
        };
        match !record.is_unfit && entry.is_operable() {
            true => Ok(Health::Usable),
            false => Ok(Health::NotUsable),
        }
    }

    fn row(&self, card: u8, channel: usize) -> Result<&Row, Refusal> {
        reach_row(card, channel)?;
        Ok(&self.rows[channel])
    }

    fn row_to_change(&mut self, card: u8, channel: usize) -> Result<&mut Row, Refusal> {
        reach_row(card, channel)?;
        Ok(&mut self.rows[channel])
    }
}
