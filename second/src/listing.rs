//! The listing: 16-byte records in, one line for each.

use std::io::{self, Read, Write};

use crate::refusal::Refusal;
use crate::station::card;
use crate::station::reception::receive;
use crate::station::row::Taken;
use crate::station::Station;
use crate::stream::answer_each;
use crate::string::BYTES;

/// "Channel, epoch big-endian in four bytes, relative string."
pub const RECORD_BYTES: usize = 1 + 4 + BYTES;

#[derive(Clone, Copy, Debug, PartialEq, Eq)]
pub struct Record {
    pub channel: u8,
    pub epoch: u32,
    pub symbols: [u8; BYTES],
}

impl Record {
    pub fn from_bytes(bytes: &[u8; RECORD_BYTES]) -> Record {
        let [channel, e0, e1, e2, e3, symbols @ ..] = *bytes;
        Record {
            channel,
            epoch: u32::from_be_bytes([e0, e1, e2, e3]),
            symbols,
        }
    }

    pub fn to_bytes(&self) -> Vec<u8> {
        let head = [self.channel];
        [&head[..], &self.epoch.to_be_bytes(), &self.symbols].concat()
    }
}

/// Offers each record to a fresh station and prints its line: "the listing speaks for card
/// one".
pub fn answer_stream(input: impl Read, output: impl Write) -> io::Result<()> {
    let mut station = Station::default();
    answer_each(input, output, |record| {
        line_of_record(&mut station, Record::from_bytes(record))
    })
}

/// "Channel, epoch, number (0 if taken), repaired bit (0 if none or number 1..4),
/// m (0 for 1..5)"; 31 to 33 have the zeros of 3, and 15 is printed "and then zeros". Then
/// the polarity, "0 or 1, and 0 for refused records".
fn line_of_record(station: &mut Station, record: Record) -> String {
    let Record {
        channel,
        epoch,
        symbols,
    } = record;
    let answer = station.offer(card::ONE, usize::from(channel), epoch, &symbols);
    let polarity = answer.map_or(0, |taken| taken.polarity.number());
    let (number, bit, m) = match answer {
        Ok(Taken { m, verdict, .. }) => (0, verdict.repaired_bit(), m),
        Err(refusal) => {
            let (bit, m) = seen_in_refused(refusal, &symbols);
            (refusal.number(), bit, m)
        }
    };
    format!("{channel} {epoch} {number} {bit} {m} {polarity}")
}

/// The repaired bit and m of a refused string, as far as the refusal came after
/// them.
fn seen_in_refused(refusal: Refusal, symbols: &[u8]) -> (usize, usize) {
    if matches!(refusal, Refusal::Channel | Refusal::Owner) {
        return (0, 0);
    }
    match receive(symbols) {
        Ok(received) => (received.verdict.repaired_bit(), received.string.m()),
        Err(_) => (0, 0),
    }
}
