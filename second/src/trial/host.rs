//! Requests 15 and 16: numbers for a host.

use super::{in_decimal, Answer};
use crate::host;
use crate::request::split_strings;
use crate::scaled::Scaled;

/// Payload: the word's number, then the plain string, of any length.
pub fn word(payload: &[u8]) -> Option<Answer> {
    let (&number, string) = payload.split_first()?;
    let answer = host::word(number, string);
    Some(answer.map(|scaled| format!("ok {}", float(scaled))))
}

/// Payload: four plain strings, each after its length in one byte. The line has the 26 words
/// and the twelve floats.
pub fn record(payload: &[u8]) -> Option<Answer> {
    let answer = host::record(split_strings(payload)?);
    Some(answer.map(|record| {
        let floats = record.scaled.into_iter().map(|(_, scaled)| float(scaled));
        let floats: Vec<String> = floats.collect();
        format!("ok {} {}", in_decimal(&record.words), floats.join(" "))
    }))
}

fn float(scaled: Scaled) -> String {
    format!("{:016x}", scaled.float_bits())
}
