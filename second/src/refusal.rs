//! The numbers that say no.

use std::fmt;

/// Why a call is refused: the rows of the paper's table "Numbers that say no".
#[derive(Clone, Copy, Debug, PartialEq, Eq)]
pub enum Refusal {
    Channel,
    Shape,
    Damaged(Damage),
    Idle,
    Number,
    Early,
    Stale,
    OffBeat,
    Conflict,
    /// Names the word that fails by its top bit number, and of a sky the string, 1 to 75.
    Range {
        place: usize,
    },
    Place,
    Room,
    Nothing,
    Slot,
    /// "When the channel is the other card's."
    Owner,
    /// "For a card other than one or two."
    Card,
    /// "When the output is not 320 bytes": that of a navigation record.
    RecordRoom,
    /// "When the entries are not slots 1..24 in order": those of a sky.
    Order,
    /// Names a block's field by the place of its tag byte, counted from 0.
    Field {
        trouble: FieldTrouble,
        place: usize,
    },
    /// Names the byte of a torn file at which the next item begins.
    Full {
        room: Room,
        byte: usize,
    },
}

/// What the sums of a damaged string say: three numbers in the position of 3, which
/// itself is answered nowhere.
#[derive(Clone, Copy, Debug, PartialEq, Eq)]
pub enum Damage {
    /// "S = 0, C = 1."
    WholeAlone,
    /// "S not 0, C = 0."
    WholeMissing,
    /// "Place above 85": C = 1, two or more sums set, S+8-K above 85.
    PlaceAbove85,
}

/// Why a field of a block is refused: "tested in the order 43, 41, 42".
#[derive(Clone, Copy, Debug, PartialEq, Eq)]
pub enum FieldTrouble {
    /// "Unknown tag."
    UnknownTag,
    /// "Wrong length for the tag."
    WrongLength,
    /// "Block ends inside a field."
    EndsInside,
}

impl FieldTrouble {
    fn number(self) -> u8 {
        match self {
            FieldTrouble::UnknownTag => 41,
            FieldTrouble::WrongLength => 42,
            FieldTrouble::EndsInside => 43,
        }
    }
}

/// What is full when a torn file is salvaged.
#[derive(Clone, Copy, Debug, PartialEq, Eq)]
pub enum Room {
    /// "No room in the output for the next field."
    Output,
    /// "No room for the next stretch."
    List,
}

impl Room {
    fn number(self) -> u8 {
        match self {
            Room::Output => 44,
            Room::List => 45,
        }
    }
}

impl Refusal {
    pub fn number(self) -> u8 {
        match self {
            Refusal::Channel => 1,
            Refusal::Shape => 2,
            Refusal::Damaged(Damage::WholeAlone) => 31,
            Refusal::Damaged(Damage::WholeMissing) => 32,
            Refusal::Damaged(Damage::PlaceAbove85) => 33,
            Refusal::Idle => 4,
            Refusal::Number => 5,
            Refusal::Early => 6,
            Refusal::Stale => 7,
            Refusal::OffBeat => 8,
            Refusal::Conflict => 9,
            Refusal::Range { .. } => 10,
            Refusal::Place => 11,
            Refusal::Room => 12,
            Refusal::Nothing => 13,
            Refusal::Slot => 14,
            Refusal::Owner => 15,
            Refusal::Card => 16,
            Refusal::RecordRoom => 17,
            Refusal::Order => 18,
            Refusal::Field { trouble, .. } => trouble.number(),
            Refusal::Full { room, .. } => room.number(),
        }
    }
}

/// "A refusal answers its number, with the place for RANGE, and nothing more"; a block's
/// "tells the byte place of the field", salvage "says at which byte".
impl fmt::Display for Refusal {
    fn fmt(&self, out: &mut fmt::Formatter) -> fmt::Result {
        write!(out, "no {}", self.number())?;
        match self {
            Refusal::Range { place }
            | Refusal::Field { place, .. }
            | Refusal::Full { byte: place, .. } => write!(out, " {place}"),
            _ => Ok(()),
        }
    }
}
