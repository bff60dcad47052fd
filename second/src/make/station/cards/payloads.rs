//! Payloads too short or too long behind the card, and numbers that are no request.

use super::super::super::Input;
use crate::request::card::{FOR_ANY_CARD, OF_CARDS};
use crate::request::{BLOCK, OFFER, SUMMARY};

/// Those that there are, and one below and one above.
const CARDS: [u8; 4] = [0, 1, 2, 3];

/// A channel, an epoch, and the beginning of a string.
const BEGINNING_OF_AN_OFFER: [u8; 6] = [24, 0, 0, 0, 100, 0x0F];

pub(super) fn add_all(input: &mut Input) {
    input.fresh();
    for op in OF_CARDS {
        input.request(op + FOR_ANY_CARD, &[]);
        for card in CARDS {
            for payload in wrong_payloads(op) {
                input.request(op + FOR_ANY_CARD, &[&[card], &payload[..]].concat());
            }
        }
    }
    input.numbers_between();
    input.ask_ends_of_cards();
}

/// Behind the card. A block has any length.
fn wrong_payloads(op: u8) -> Vec<Vec<u8>> {
    match op {
        OFFER => (0..5)
            .map(|length| BEGINNING_OF_AN_OFFER[..length].to_vec())
            .collect(),
        BLOCK => Vec::new(),
        SUMMARY => [1, 2, 16, 256].map(|length| vec![0; length]).to_vec(),
        _ => [0, 2, 3, 16, 256].map(|length| vec![1; length]).to_vec(),
    }
}

impl Input {
    /// From 32 to 63 all that are no request; 44 stands where a fresh station would.
    fn numbers_between(&mut self) {
        let is_known = |number: &u8| OF_CARDS.contains(&(number - FOR_ANY_CARD));
        for number in (FOR_ANY_CARD..2 * FOR_ANY_CARD).filter(|number| !is_known(number)) {
            for payload in [&[][..], &[1], &[2], &[2, 24], &BEGINNING_OF_AN_OFFER] {
                self.request(number, payload);
            }
        }
    }
}
