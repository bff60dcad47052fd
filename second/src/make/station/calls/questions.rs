//! What is asked after a call: of the channels and slots that it was about, and of others.

use super::super::cards::Asker;
use super::super::navigation::RIGHT_ROOM;
use super::{Calls, Input};
use crate::request::{ENTRY, ENTRY_WORDS, HEALTH, IMMEDIATE, NAVIGATION, SUMMARY, TALLIES};
use crate::station::book::SLOTS;
use crate::station::card::ONE;
use crate::station::frame::STRINGS_IN_A_FRAME;
use crate::station::record::STRINGS_OF_A_RECORD;

/// A navigation record can hardly be there before string 5.
const OF_A_ROW: [u8; 7] = [
    IMMEDIATE, TALLIES, HEALTH, IMMEDIATE, TALLIES, HEALTH, NAVIGATION,
];
const OF_ALL: [u8; 8] = [
    IMMEDIATE,
    TALLIES,
    HEALTH,
    NAVIGATION,
    NAVIGATION,
    ENTRY,
    ENTRY_WORDS,
    SUMMARY,
];

/// The ends of the slots that there are, and such as there are not.
const STRANGE_SLOTS: [u8; 4] = [0, 24, 25, 255];

const WRONG_ROOMS: [u16; 8] = [0, 1, 79, 80, 319, 321, 640, 1024];

/// What a call was about. Where m is 0 no string was read.
#[derive(Clone, Copy)]
pub(super) struct About {
    pub card: u8,
    pub channel: u8,
    pub slot: u8,
    pub m: usize,
}

impl About {
    /// A channel, and nothing of the book.
    pub(super) fn row(card: u8, channel: u8) -> About {
        About {
            card,
            channel,
            slot: 0,
            m: 0,
        }
    }

    /// Strings 5 to 15 may change the book.
    fn questions(&self) -> &'static [u8] {
        match self.m == 0 || STRINGS_OF_A_RECORD.contains(&self.m) {
            true => &OF_A_ROW,
            false => &OF_ALL,
        }
    }
}

impl Calls {
    /// Fewer questions than `limit`. Three of four are about one of these, where there are any,
    /// the others about anything.
    pub(super) fn ask_about(&mut self, abouts: &[About], limit: usize) {
        for _ in 0..self.input.random.below(limit) {
            let about = match self.input.random.below(4) {
                1.. if !abouts.is_empty() => self.input.random.one_of(abouts),
                _ => self.about_anything(),
            };
            self.input.question(&about);
        }
    }

    fn about_anything(&mut self) -> About {
        let card = self.some_card();
        About {
            card,
            channel: self.channel_in_use(card),
            slot: 1 + self.input.random.below(SLOTS) as u8,
            m: STRINGS_IN_A_FRAME,
        }
    }
}

impl Input {
    fn question(&mut self, about: &About) {
        let asker = self.some_asker(about.card);
        match self.random.one_of(about.questions()) {
            SUMMARY => self.ask(asker, SUMMARY, &[]),
            op @ (ENTRY | ENTRY_WORDS) => {
                let slot = self.slot_near(about.slot);
                self.ask(asker, op, &[slot]);
            }
            NAVIGATION => {
                let channel = self.channel_near(about);
                let room = self.some_room();
                self.navigation_in(named_by(asker), channel, room);
            }
            op => {
                let channel = self.channel_near(about);
                self.ask(asker, op, &[channel]);
            }
        }
    }

    fn slot_near(&mut self, slot: u8) -> u8 {
        match self.random.below(8) {
            0 => self.random.one_of(&STRANGE_SLOTS),
            _ => slot,
        }
    }

    fn channel_near(&mut self, about: &About) -> u8 {
        match self.random.below(15) {
            0 => self.strange_channel(about.card),
            _ => about.channel,
        }
    }

    fn some_room(&mut self) -> u16 {
        match self.random.below(5) {
            0 => self.random.one_of(&WRONG_ROOMS),
            _ => RIGHT_ROOM,
        }
    }
}

fn named_by(asker: Asker) -> u8 {
    match asker {
        Asker::Unnamed => ONE,
        Asker::Card(card) => card,
    }
}
