//! Requests 1 to 3: relative code and the check.
//!
//! The payload's first byte is the room, the output's length; the string is the
//! rest, of any length.

use super::{hex, require_room, Answer};
use crate::hamming;
use crate::refusal::Refusal;
use crate::relative;
use crate::string::NavString;

/// Order of refusals: 12, 2.
pub fn from_relative(payload: &[u8]) -> Option<Answer> {
    with_room(payload, |symbols| {
        let (string, polarity) = relative::from_relative(&symbols);
        Ok(format!(
            "ok {} {}",
            hex(&string.to_bytes()),
            polarity.number()
        ))
    })
}

/// Order of refusals: 12, 2, 4.
pub fn to_relative(payload: &[u8]) -> Option<Answer> {
    with_room(payload, |string| {
        let symbols = relative::to_relative(&string)?;
        Ok(format!("ok {}", hex(&symbols.to_bytes())))
    })
}

/// Order of refusals: 12, 2, 31 to 33, 4.
pub fn check(payload: &[u8]) -> Option<Answer> {
    with_room(payload, |string| {
        let (verdict, repaired) = hamming::check(&string)?;
        let bit = verdict.repaired_bit();
        Ok(format!("ok {bit} {}", hex(&repaired.to_bytes())))
    })
}

fn with_room(payload: &[u8], call: fn(NavString) -> Answer) -> Option<Answer> {
    let (&room, string) = payload.split_first()?;
    Some(string_for(room, string).and_then(call))
}

fn string_for(room: u8, bytes: &[u8]) -> Result<NavString, Refusal> {
    require_room(room)?;
    NavString::from_bytes(bytes)
}
