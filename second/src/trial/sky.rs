//! Requests 19 and 20: the line symbols of a sky, and the chips of the ranging code.

use super::{hex, Answer};
use crate::ranging;
use crate::request::LARGEST_ROOM_OF_A_SKY;
use crate::sky::line::SYMBOLS_OF_A_STRING;
use crate::sky::{Sky, STRINGS};

/// Payload: room in two bytes, the string that is asked for, then the words. All symbols are
/// made, and the line has those of this string.
pub fn symbols(payload: &[u8]) -> Option<Answer> {
    let (&[high, low, place], words) = payload.split_first_chunk()?;
    let sky = Sky::from_bytes(words)?;
    let room = u16::from_be_bytes([high, low]);
    let place = usize::from(place);
    if room > LARGEST_ROOM_OF_A_SKY || !(1..=STRINGS).contains(&place) {
        return None;
    }
    let symbols = sky.symbols_in(usize::from(room));
    Some(symbols.map(|symbols| {
        let (strings, _) = symbols.as_chunks::<SYMBOLS_OF_A_STRING>();
        format!("ok {}", hex(&in_bytes(&strings[place - 1])))
    }))
}

/// "Eight to a byte, the first highest."
fn in_bytes(symbols: &[u8]) -> Vec<u8> {
    let bytes = symbols.chunks(8);
    bytes
        .map(|bits| bits.iter().fold(0, |byte, bit| 2 * byte + bit))
        .collect()
}

/// Payload: the number of the chip in two bytes.
pub fn chip(payload: &[u8]) -> Option<Answer> {
    let &[high, low] = payload else {
        return None;
    };
    let number = u16::from_be_bytes([high, low]);
    let chip = ranging::chip(usize::from(number));
    Some(Ok(format!("ok {chip}")))
}
