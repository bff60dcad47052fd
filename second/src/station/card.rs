//! The two cards over one station, and which channels each of them may ask for.

use std::ops::Range;

use crate::refusal::Refusal;

/// "Two cards of 24 channels."
pub const CHANNELS_OF_A_CARD: usize = 24;

/// The numbers that calls name the cards by.
pub const ONE: u8 = 1;
pub const TWO: u8 = 2;

#[derive(Clone, Copy, Debug, PartialEq, Eq)]
enum Card {
    One,
    Two,
}

/// CARD: "for a card other than one or two".
fn card_named(number: u8) -> Result<Card, Refusal> {
    match number {
        ONE => Ok(Card::One),
        TWO => Ok(Card::Two),
        _ => Err(Refusal::Card),
    }
}

/// "Channels 0..23 belong to card one, 24..47 to card two." CHANNEL: "above 47".
fn owner_of(channel: usize) -> Result<Card, Refusal> {
    match channel {
        0..=23 => Ok(Card::One),
        24..=47 => Ok(Card::Two),
        _ => Err(Refusal::Channel),
    }
}

/// "A card reaches its own rows." Order of refusals: 16, 1, 15.
pub fn reach_row(card: u8, channel: usize) -> Result<(), Refusal> {
    let asking = card_named(card)?;
    let owner = owner_of(channel)?;
    match asking == owner {
        true => Ok(()),
        false => Err(Refusal::Owner),
    }
}

/// In order; none for a card that there is not.
pub fn channels_of(card: u8) -> Range<usize> {
    match card {
        ONE => 0..CHANNELS_OF_A_CARD,
        TWO => CHANNELS_OF_A_CARD..2 * CHANNELS_OF_A_CARD,
        _ => 0..0,
    }
}

/// "And the book with its summary." Refused by 16 alone.
pub fn reach_book(card: u8) -> Result<(), Refusal> {
    card_named(card).map(|_| ())
}
