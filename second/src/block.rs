//! Blocks: "tagged fields, one-byte tag, two-byte big-endian length", each a call to the
//! station or a remark.

use crate::framing;
use crate::listing::Record;
use crate::refusal::{FieldTrouble, Refusal};
use crate::station::row::Taken;
use crate::station::Station;

pub const OFFER: u8 = 1;
pub const RESET: u8 = 2;
pub const REMARK: u8 = 3;

/// What a field asks for.
#[derive(Clone, Copy, Debug, PartialEq, Eq)]
pub enum Field {
    /// "Tag 1 is an offer (16 bytes, as the listing reads)."
    Offer(Record),
    /// "Tag 2 a reset (one byte, the channel)."
    Reset { channel: u8 },
    /// "Tag 3 a remark of any length, ignored."
    Remark,
}

/// "The block reader keeps the lent bytes and its place together and gives one field at a
/// time." Behind a field that is refused it gives nothing more.
pub struct Fields<'a> {
    block: &'a [u8],
    place: usize,
}

pub fn fields(block: &[u8]) -> Fields<'_> {
    Fields { block, place: 0 }
}

impl Iterator for Fields<'_> {
    type Item = Result<Field, Refusal>;

    fn next(&mut self) -> Option<Result<Field, Refusal>> {
        let (rest, place) = (&self.block[self.place..], self.place);
        if rest.is_empty() {
            return None;
        }
        match first_field(rest) {
            Ok((field, behind)) => {
                self.place = self.block.len() - behind.len();
                Some(Ok(field))
            }
            Err(trouble) => {
                self.place = self.block.len();
                Some(Err(Refusal::Field { trouble, place }))
            }
        }
    }
}

/// The field and the bytes behind it. Order of refusals: 43, 41, 42.
pub fn first_field(rest: &[u8]) -> Result<(Field, &[u8]), FieldTrouble> {
    let (tag, content, behind) = framing::split_first(rest).ok_or(FieldTrouble::EndsInside)?;
    let field = match tag {
        OFFER => offer_in(content),
        RESET => reset_in(content),
        REMARK => Some(Field::Remark),
        _ => return Err(FieldTrouble::UnknownTag),
    };
    let field = field.ok_or(FieldTrouble::WrongLength)?;
    Ok((field, behind))
}

/// None where the length is wrong.
fn offer_in(content: &[u8]) -> Option<Field> {
    let record = content.try_into().ok()?;
    Some(Field::Offer(Record::from_bytes(record)))
}

/// None where the length is wrong.
fn reset_in(content: &[u8]) -> Option<Field> {
    let &[channel] = content else {
        return None;
    };
    Some(Field::Reset { channel })
}

/// What the station answers to one field.
#[derive(Clone, Copy, Debug, PartialEq, Eq)]
pub enum Answer {
    Offer(Result<Taken, Refusal>),
    Reset(Result<(), Refusal>),
}

/// The answers "in the order written", and how the block ended.
#[derive(Clone, Debug, PartialEq, Eq)]
pub struct HandedOver {
    pub answers: Vec<Answer>,
    pub end: Result<(), Refusal>,
}

/// "The work stops there, keeps what went before": a refused field ends it. A call that
/// the station refuses is answered and ends nothing; so it refuses each call of a card that
/// there is not.
pub fn hand_over(station: &mut Station, card: u8, block: &[u8]) -> HandedOver {
    let mut answers = Vec::new();
    for field in fields(block) {
        match field {
            Ok(field) => answers.extend(call(station, card, field)),
            Err(refusal) => {
                return HandedOver {
                    answers,
                    end: Err(refusal),
                }
            }
        }
    }
    HandedOver {
        answers,
        end: Ok(()),
    }
}

/// A remark has no answer.
fn call(station: &mut Station, card: u8, field: Field) -> Option<Answer> {
    match field {
        Field::Offer(Record {
            channel,
            epoch,
            symbols,
        }) => {
            let answer = station.offer(card, usize::from(channel), epoch, &symbols);
            Some(Answer::Offer(answer))
        }
        Field::Reset { channel } => {
            let answer = station.reset(card, usize::from(channel));
            Some(Answer::Reset(answer))
        }
        Field::Remark => None,
    }
}

/// A field of any tag and content, known or not.
pub fn field(tag: u8, content: &[u8]) -> Vec<u8> {
    let mut bytes = Vec::new();
    framing::append(&mut bytes, tag, content);
    bytes
}

pub fn offer_field(record: &Record) -> Vec<u8> {
    field(OFFER, &record.to_bytes())
}

pub fn reset_field(channel: u8) -> Vec<u8> {
    field(RESET, &[channel])
}

pub fn remark_field(remark: &[u8]) -> Vec<u8> {
    field(REMARK, remark)
}
