//! The navigation file: a header, and the records that a card's channels tell in a capture.

use std::io::{self, Read, Write};

use super::epoch::Epoch;
use super::Navigation;
use crate::listing::Record;
use crate::station::book::SLOTS;
use crate::station::card::channels_of;
use crate::station::Station;
use crate::stream::for_each_whole;

/// What stands in columns 1 to 60 and what in columns 61 to 80. No one is named who ran the
/// program, and no date: there is no clock.
const HEADER: [(&str, &str); 3] = [
    (
        "     2.11           G: GLONASS NAV DATA",
        "RINEX VERSION / TYPE",
    ),
    ("Spineyarrow", "PGM / RUN BY / DATE"),
    ("", "END OF HEADER"),
];

/// A file being written: the station, and what was last written of each satellite.
struct File {
    station: Station,
    card: u8,
    /// Of satellite n at n - 1.
    last_written: [Option<Epoch>; SLOTS],
}

/// Offers each record of a capture to a fresh station, by this card. Before each of them its
/// channel is asked, and at the end all channels of the card. A record that is cut short is left
/// out.
pub fn answer_stream(card: u8, input: impl Read, mut output: impl Write) -> io::Result<()> {
    for (text, label) in HEADER {
        writeln!(output, "{text:60}{label:20}")?;
    }
    let mut file = File::new(card);
    for_each_whole(input, |bytes| {
        let Record {
            channel,
            epoch,
            symbols,
        } = Record::from_bytes(bytes);
        let channel = usize::from(channel);
        output.write_all(file.news_of(channel).as_bytes())?;
        // A refusal is the listing's business.
        let _ = file.station.offer(card, channel, epoch, &symbols);
        Ok(())
    })?;
    for channel in channels_of(card) {
        output.write_all(file.news_of(channel).as_bytes())?;
    }
    output.flush()
}

impl File {
    fn new(card: u8) -> File {
        File {
            station: Station::default(),
            card,
            last_written: [None; SLOTS],
        }
    }

    /// The channel's record where there is one and its satellite has another epoch than the one
    /// last written; else nothing.
    fn news_of(&mut self, channel: usize) -> String {
        let Ok(navigation) = Navigation::of(&self.station, self.card, channel) else {
            return String::new();
        };
        let last = &mut self.last_written[navigation.satellite - 1];
        if *last == Some(navigation.epoch) {
            return String::new();
        }
        *last = Some(navigation.epoch);
        navigation.written()
    }
}
