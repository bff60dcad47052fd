//! Torn files: what can still be read of blocks that were kept end to end.

use std::iter::successors;
use std::ops::Range;

use crate::block::{fields, first_field, Field};
use crate::listing::Record;
use crate::refusal::{Refusal, Room};

/// What a file is made of, one after another; the bytes from the first up to, but not
/// including, the end.
#[derive(Clone, Debug, PartialEq, Eq)]
pub enum Item {
    /// A whole good field.
    Field(Range<usize>),
    /// A stretch that is skipped.
    Stretch(Range<usize>),
}

impl Item {
    fn bytes(&self) -> &Range<usize> {
        match self {
            Item::Field(bytes) | Item::Stretch(bytes) => bytes,
        }
    }
}

/// The items of a file, in order: each begins where the one before it ends.
pub fn items(file: &[u8]) -> impl Iterator<Item = Item> + '_ {
    successors(item_at(file, 0), |item| item_at(file, item.bytes().end))
}

/// None at the end of the file.
fn item_at(file: &[u8], place: usize) -> Option<Item> {
    if place == file.len() {
        return None;
    }
    Some(match end_of_field(file, place) {
        Some(end) => Item::Field(place..end),
        None => Item::Stretch(place..first_good_place(file, place)),
    })
}

/// Where the field at this place ends; none where a block is refused there.
fn end_of_field(file: &[u8], place: usize) -> Option<usize> {
    let (_, behind) = first_field(&file[place..]).ok()?;
    Some(file.len() - behind.len())
}

/// "From a place where R-4 would refuse, it moves on one byte at a time to the first place"
/// that is good. "Where there is no such place, the rest is skipped."
fn first_good_place(file: &[u8], refused: usize) -> usize {
    let mut places = refused + 1..file.len();
    let found = places.find(|&place| is_good_place(file, place));
    found.unwrap_or(file.len())
}

/// "Two whole good fields follow one another, or one whole good field ends the file."
fn is_good_place(file: &[u8], place: usize) -> bool {
    let ends_well = |end| end == file.len() || end_of_field(file, end).is_some();
    end_of_field(file, place).is_some_and(ends_well)
}

/// What was copied, the stretches that were skipped, and how it ended.
#[derive(Clone, Debug, PartialEq, Eq)]
pub struct Salvaged {
    pub kept: Vec<u8>,
    pub skipped: Vec<Range<usize>>,
    pub end: Result<(), Refusal>,
}

/// How many bytes the output has, and how many stretches the list.
#[derive(Clone, Copy, Debug, PartialEq, Eq)]
pub struct Rooms {
    pub output: usize,
    pub list: usize,
}

/// With as much room as it can take.
pub fn salvage(file: &[u8]) -> Salvaged {
    let rooms = Rooms {
        output: file.len(),
        list: file.len(),
    };
    salvage_within(rooms, file)
}

/// "It stops before that item and says at which byte": what went before stays.
pub fn salvage_within(rooms: Rooms, file: &[u8]) -> Salvaged {
    let mut salvaged = Salvaged {
        kept: Vec::new(),
        skipped: Vec::new(),
        end: Ok(()),
    };
    for item in items(file) {
        if let Err(room) = salvaged.take(file, &item, rooms) {
            let byte = item.bytes().start;
            salvaged.end = Err(Refusal::Full { room, byte });
            break;
        }
    }
    salvaged
}

impl Salvaged {
    fn take(&mut self, file: &[u8], item: &Item, rooms: Rooms) -> Result<(), Room> {
        match item {
            Item::Field(bytes) if self.kept.len() + bytes.len() <= rooms.output => {
                self.kept.extend(&file[bytes.clone()]);
                Ok(())
            }
            Item::Stretch(bytes) if self.skipped.len() < rooms.list => {
                self.skipped.push(bytes.clone());
                Ok(())
            }
            Item::Field(_) => Err(Room::Output),
            Item::Stretch(_) => Err(Room::List),
        }
    }

    /// A line for each stretch: first byte and count.
    pub fn list(&self) -> String {
        let lines = self.skipped.iter();
        lines
            .map(|bytes| format!("{} {}\n", bytes.start, bytes.len()))
            .collect()
    }

    /// The records of the offers, without resets and remarks.
    pub fn records(&self) -> Vec<u8> {
        let offers = fields(&self.kept).filter_map(|field| match field {
            Ok(Field::Offer(record)) => Some(record),
            _ => None,
        });
        offers
            .flat_map(|record: Record| record.to_bytes())
            .collect()
    }
}
