//! Histories of calls by two cards at once, and by cards that there are not.

use second::random::SplitMix64;
use second::station::card::{ONE, TWO};
use second::station::Station;

use crate::calls::{history, Answer, Call};

/// A call and the card that makes it.
#[derive(Clone)]
pub struct CardCall {
    pub card: u8,
    pub call: Call,
}

impl CardCall {
    pub fn answer(&self, station: &mut Station) -> Answer {
        self.call.answer_to(self.card, station)
    }
}

/// The same place on the other card; channels above 47 stay.
pub fn on_the_other_card(call: &Call) -> Call {
    let mut call = call.clone();
    let (Call::Offer { channel, .. } | Call::Reset { channel }) = &mut call;
    if *channel < 48 {
        *channel = (*channel + 24) % 48;
    }
    call
}

/// What one card has heard and what the other has, mixed. One call in ten is made by another
/// card than the one that it comes from.
pub fn two_histories(seed: u64) -> Vec<CardCall> {
    let mut random = SplitMix64::new(seed);
    let first = history(2 * seed);
    let second: Vec<Call> = history(2 * seed + 1)
        .iter()
        .map(on_the_other_card)
        .collect();
    let mut histories = [(ONE, first.into_iter()), (TWO, second.into_iter())];
    let mut calls = Vec::new();
    loop {
        let (card, history) = &mut histories[random.below(2)];
        let Some(call) = history.next() else {
            return calls;
        };
        let card = match random.below(10) {
            0 => random.one_of(&[0, 1, 2, 3, 255]),
            _ => *card,
        };
        calls.push(CardCall { card, call });
    }
}

/// Those that this card makes.
pub fn made_by(card: u8, calls: &[CardCall]) -> Vec<CardCall> {
    let calls = calls.iter().filter(|call| call.card == card);
    calls.cloned().collect()
}
