//! Navigation records: with all that they need, with some of it missing, and with every word.

mod dates;
mod numbers;
mod refusals;
mod skies;
mod states;

use super::super::satellite::{on_day, Upload, FRAMES_IN_A_SUPERFRAME};
use super::super::Input;
use super::cards::Asker;
use super::SOME_START;
use crate::alter::with_code;
use crate::navigation::RECORD_BYTES;
use crate::request::{CARRIER, FIVE_OF, IMMEDIATE, NAVIGATION};
use crate::station::card::{ONE, TWO};
use crate::station::frame::STRINGS_IN_A_FRAME;
use crate::string::NavString;
use crate::words::kinds::{DAY, TB, TK};
use crate::words::word::time_of_day;

const FRAME: u32 = STRINGS_IN_A_FRAME as u32;
pub(in super::super) const RIGHT_ROOM: u16 = RECORD_BYTES as u16;

/// The channel that the almanac comes from, of card one.
const ALMANAC_CHANNEL: u8 = 10;

/// The slots that there are, and their neighbours.
const SLOTS: [u8; 5] = [0, 1, 24, 25, 255];

pub(in super::super) fn add_all(input: &mut Input) {
    refusals::add_all(input);
    states::add_all(input);
    dates::add_all(input);
    numbers::add_all(input);
    skies::add_all(input);
}

/// What a frame says of its satellite and its time: N4, NT and tb; hour, minute and half
/// minute of tk.
#[derive(Clone, Copy)]
struct Told {
    n: u128,
    period: u128,
    day: u128,
    tb: u128,
    tk: (i64, i64, i64),
}

/// A noon that nothing is wrong with.
const SOME_TIME: Told = Told {
    n: 7,
    period: 6,
    day: 104,
    tb: 48,
    tk: (12, 0, 0),
};

/// A channel of its card, and the start of the frame that it hears.
#[derive(Clone, Copy)]
struct Place {
    card: u8,
    channel: u8,
    start: u32,
}

/// One channel of each card.
const PLACES: [Place; 2] = [
    Place {
        card: ONE,
        channel: 3,
        start: SOME_START,
    },
    Place {
        card: TWO,
        channel: 24,
        start: SOME_START,
    },
];

impl Place {
    fn next(self) -> Place {
        Place {
            start: self.start + FRAME,
            ..self
        }
    }
}

impl Input {
    /// Strings 1 to 5; the other words are any.
    fn told(&mut self, told: Told) -> Vec<NavString> {
        let [first, second, third, fourth] = self.satellite(told.n).strings;
        let string_5 = self.upload().string_5;
        let (hour, minute, half_minute) = told.tk;
        let tk = time_of_day(hour, minute, half_minute) as u128;
        let almanac_day = 1 + self.random.below(1461) as u128;
        vec![
            with_code(&first, &TK, tk),
            with_code(&second, &TB, told.tb),
            third,
            with_code(&fourth, &DAY, told.day),
            on_day(&string_5, (told.period, almanac_day)),
        ]
    }

    fn hear(&mut self, place: Place, strings: &[NavString]) {
        self.strings_by(Asker::Card(place.card), place.channel, place.start, strings);
    }

    pub(in super::super) fn navigation_in(&mut self, card: u8, channel: u8, room: u16) {
        let payload = [&[card, channel][..], &room.to_be_bytes()].concat();
        self.request(NAVIGATION, &payload);
    }

    /// The text alone, in the right room.
    fn ask_text(&mut self, place: Place) {
        self.navigation_in(place.card, place.channel, RIGHT_ROOM);
    }

    /// The text, string 5 and the record, card one in either form.
    fn ask_navigation(&mut self, place: Place) {
        let Place { card, channel, .. } = place;
        self.ask_text(place);
        self.request(FIVE_OF, &[card, channel]);
        match (card, self.random.below(2)) {
            (ONE, 0) => self.request(IMMEDIATE, &[channel]),
            _ => self.ask(Asker::Card(card), IMMEDIATE, &[channel]),
        }
    }

    pub(super) fn ask_carriers(&mut self, card: u8, slots: impl IntoIterator<Item = u8>) {
        for slot in slots {
            self.request(CARRIER, &[card, slot]);
        }
    }

    /// A fresh station with all entries of an almanac in its book.
    fn fresh_with_book(&mut self, upload: &Upload) {
        self.fresh();
        let satellite = self.satellite(1);
        for number in 1..=FRAMES_IN_A_SUPERFRAME {
            let start = SOME_START + FRAME * number as u32;
            let strings = satellite.frame(upload, number);
            self.offer_in_frame(ALMANAC_CHANNEL, start, &strings[4..]);
        }
    }

    fn fresh_with_some_book(&mut self) {
        let upload = self.upload();
        self.fresh_with_book(&upload);
    }
}
