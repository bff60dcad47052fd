//! Requests 4 and 5: the reader and the encoder.

use super::{hex, in_decimal, require_room, Answer};
use crate::request::{kind_numbered, values_from_bytes, BYTES_OF_A_VALUE};
use crate::words::{self, kinds::Kind};

/// Payload: kind, then the plain string, of any length.
pub fn read(payload: &[u8]) -> Option<Answer> {
    let (&kind, string) = payload.split_first()?;
    let answer = words::read(kind_numbered(kind)?, string);
    Some(answer.map(|(m, values)| format!("ok {m} {}", in_decimal(&values))))
}

/// Payload: room, kind, m, then one value for each word of the kind.
pub fn write(payload: &[u8]) -> Option<Answer> {
    let (&[room, kind, m], values) = payload.split_first_chunk()?;
    let kind = kind_numbered(kind)?;
    if values.len() != BYTES_OF_A_VALUE * kind.words.len() {
        return None;
    }
    Some(write_in_room(room, kind, m, &values_from_bytes(values)))
}

/// Order of refusals: 12, 11, 10.
fn write_in_room(room: u8, kind: &Kind, m: u8, values: &[i64]) -> Answer {
    require_room(room)?;
    let string = words::write(kind, usize::from(m), values)?;
    Ok(format!("ok {}", hex(&string.to_bytes())))
}
