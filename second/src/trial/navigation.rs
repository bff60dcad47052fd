//! Requests 18, 24 and 25: the navigation record, and what it needs beside the immediate one.

use super::station::only_byte;
use super::{in_decimal, Answer};
use crate::navigation::Navigation;
use crate::request::LARGEST_ROOM;
use crate::station::Station;

/// Payload: channel, room in two bytes. The four lines stand in one, with `|` between them.
pub fn record(station: &Station, card: u8, payload: &[u8]) -> Option<Answer> {
    let &[channel, high, low] = payload else {
        return None;
    };
    let room = u16::from_be_bytes([high, low]);
    if room > LARGEST_ROOM {
        return None;
    }
    let navigation = Navigation::of(station, card, usize::from(channel));
    let text = navigation.and_then(|navigation| navigation.written_in(usize::from(room)));
    Some(text.map(|text| format!("ok {}", text.trim_end_matches('\n').replace('\n', "|"))))
}

/// The five words of string 5.
pub fn five_of(station: &Station, card: u8, payload: &[u8]) -> Option<Answer> {
    let answer = station.five_of(card, only_byte(payload)?);
    Some(answer.map(|words| format!("ok {}", in_decimal(&words))))
}

/// H of an entry.
pub fn carrier(station: &Station, card: u8, payload: &[u8]) -> Option<Answer> {
    let answer = station.entry(card, only_byte(payload)?);
    Some(answer.map(|entry| format!("ok {}", entry.carrier())))
}
