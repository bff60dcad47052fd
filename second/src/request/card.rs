//! Which card asks: requests that speak for card one, and the same for any card.

use super::{
    Request, BLOCK, CARRIER, ENTRY, ENTRY_WORDS, FIVE_OF, HEALTH, IMMEDIATE, NAVIGATION, OFFER,
    RESET, SUMMARY, TALLIES,
};
use crate::station::card;

/// The requests that cards make: so they speak for card one.
pub const OF_CARDS: [u8; 9] = [
    OFFER,
    RESET,
    IMMEDIATE,
    ENTRY,
    TALLIES,
    HEALTH,
    BLOCK,
    SUMMARY,
    ENTRY_WORDS,
];

/// These speak for any card as they are: the card is always the first byte of their payloads.
pub const NAMING_THEIR_CARD: [u8; 3] = [NAVIGATION, FIVE_OF, CARRIER];

/// By so much higher, with the card before their payloads, they speak for any card.
pub const FOR_ANY_CARD: u8 = 32;

/// What a request asks for whose payload begins with the card.
fn op_of_any_card(op: u8) -> Option<u8> {
    if NAMING_THEIR_CARD.contains(&op) {
        return Some(op);
    }
    let op = op.checked_sub(FOR_ANY_CARD)?;
    OF_CARDS.contains(&op).then_some(op)
}

impl<'a> Request<'a> {
    /// The card, and what it asks for, with the payload behind the card. None where no card asks, or where
    /// its byte is missing.
    pub fn asked_by(self) -> Option<(u8, Request<'a>)> {
        if OF_CARDS.contains(&self.op) {
            return Some((card::ONE, self));
        }
        let op = op_of_any_card(self.op)?;
        let (&card, payload) = self.payload.split_first()?;
        Some((card, Request { op, payload }))
    }
}
