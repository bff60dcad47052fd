//! Requests 6 to 12, 14 and 23, and 32 higher: the station's calls.

use super::{in_decimal, Answer};
use crate::refusal::Refusal;
use crate::station::book::Summary;
use crate::station::row::{News, Taken};
use crate::station::tallies::Tallies;
use crate::station::{Health, Station};

/// Payload: channel, epoch in four bytes, then the string in relative form, of any
/// length.
pub fn offer(station: &mut Station, card: u8, payload: &[u8]) -> Option<Answer> {
    let (&[channel, e0, e1, e2, e3], symbols) = payload.split_first_chunk()?;
    let epoch = u32::from_be_bytes([e0, e1, e2, e3]);
    let answer = station.offer(card, usize::from(channel), epoch, symbols);
    Some(answer_to_offer(answer))
}

pub fn answer_to_offer(answer: Result<Taken, Refusal>) -> Answer {
    answer.map(|taken| {
        let bit = taken.verdict.repaired_bit();
        let (news, polarity) = (news_number(taken.news), taken.polarity.number());
        format!("taken {} {bit} {news} {polarity}", taken.m)
    })
}

fn news_number(news: News) -> u8 {
    match news {
        News::AlreadyHeld => 0,
        News::Kept => 1,
        News::RecordBuilt => 2,
        News::RecordOutOfRange => 3,
    }
}

pub fn reset(station: &mut Station, card: u8, payload: &[u8]) -> Option<Answer> {
    let channel = only_byte(payload)?;
    Some(answer_to_reset(station.reset(card, channel)))
}

pub fn answer_to_reset(answer: Result<(), Refusal>) -> Answer {
    answer.map(|()| String::from("ok"))
}

/// The 26 words of strings 1 to 4, and the start of their frame.
pub fn immediate(station: &Station, card: u8, payload: &[u8]) -> Option<Answer> {
    let answer = station.immediate(card, only_byte(payload)?);
    Some(answer.map(|record| format!("ok {} {}", in_decimal(&record.words), record.start)))
}

/// Bits 80..9 and bits 80..10, each as a number of 18 hex digits.
pub fn entry(station: &Station, card: u8, payload: &[u8]) -> Option<Answer> {
    let answer = station.entry(card, only_byte(payload)?);
    Some(answer.map(|entry| format!("ok {} {:018x} {:018x}", entry.day, entry.even, entry.odd)))
}

/// The twelve words of the two halves.
pub fn entry_words(station: &Station, card: u8, payload: &[u8]) -> Option<Answer> {
    let answer = station.entry(card, only_byte(payload)?);
    Some(answer.map(|entry| format!("ok {}", in_decimal(&entry.words()))))
}

/// The four counts of all offers, then those of the ten causes.
pub fn tallies(station: &Station, card: u8, payload: &[u8]) -> Option<Answer> {
    let answer = station.tallies(card, only_byte(payload)?);
    Some(answer.map(|tallies| {
        let Tallies {
            offered,
            clean,
            repaired,
            refused,
            by_cause,
        } = tallies;
        let of_all = [offered, clean, repaired, refused].map(i64::from);
        let of_causes = by_cause.map(i64::from);
        format!("ok {} {}", in_decimal(&of_all), in_decimal(&of_causes))
    }))
}

pub fn health(station: &Station, card: u8, payload: &[u8]) -> Option<Answer> {
    let answer = station.health(card, only_byte(payload)?);
    Some(answer.map(|health| format!("ok {}", health_number(health))))
}

fn health_number(health: Health) -> u8 {
    match health {
        Health::Unknown => 0,
        Health::Usable => 1,
        Health::NotUsable => 2,
    }
}

pub fn fresh(station: &mut Station, payload: &[u8]) -> Option<Answer> {
    no_byte(payload)?;
    *station = Station::default();
    Some(Ok(String::from("ok")))
}

/// Count, oldest day, newest day.
pub fn summary(station: &Station, card: u8, payload: &[u8]) -> Option<Answer> {
    no_byte(payload)?;
    let answer = station.summary(card);
    Some(answer.map(|summary| {
        let Summary {
            count,
            oldest,
            newest,
        } = summary;
        format!("ok {count} {oldest} {newest}")
    }))
}

pub fn no_byte(payload: &[u8]) -> Option<()> {
    payload.is_empty().then_some(())
}

/// A channel or a slot, and nothing after it.
pub fn only_byte(payload: &[u8]) -> Option<usize> {
    match payload {
        &[byte] => Some(usize::from(byte)),
        _ => None,
    }
}
