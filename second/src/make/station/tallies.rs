//! The client's own case: "at a repair on every string it passes 65,535".

use super::super::Input;
use crate::known;
use crate::relative;
use crate::request::TALLIES;

const CHANNEL: u8 = 0;
const EPOCH: u32 = 100;
const OFFERS: usize = 65_540;

/// The tallies are asked for from here on, after each offer.
const FIRST_ASKED: usize = 65_532;

/// One string with a wrong bit, again and again: it is kept once, and held already then.
pub(in super::super) fn add_all(input: &mut Input) {
    let string = known::a().flipped(&[40]);
    let symbols = relative::to_relative(&string).expect("bit 85 is 0");
    for count in 1..=OFFERS {
        input.offer_symbols(CHANNEL, EPOCH, &symbols.to_bytes());
        if count >= FIRST_ASKED {
            input.request(TALLIES, &[CHANNEL]);
        }
    }
}
