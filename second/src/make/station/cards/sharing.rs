//! What the cards share: an entry that one of them shows is in the other's book, summary and
//! health, and in nothing else of it.

use super::super::super::satellite::Day;
use super::super::super::Input;
use super::super::almanac::{dated, with_c, Three};
use super::super::SOME_START;
use super::{Asker, CARD_ONE, CARD_TWO};
use crate::alter::with_code;
use crate::request::RESET;
use crate::station::book::SLOTS;
use crate::words::kinds::B;

/// Days that follow one another, over the end of a period.
const DAYS: [Day; 4] = [(6, 1460), (6, 1461), (7, 1), (7, 2)];

/// A card with one of its channels, and the other card with one of its own.
type Pair = [(Asker, u8); 2];

const PAIRS: [Pair; 4] = [
    [(CARD_ONE, 23), (CARD_TWO, 24)],
    [(CARD_TWO, 24), (CARD_ONE, 23)],
    [(CARD_ONE, 0), (CARD_TWO, 47)],
    [(CARD_TWO, 47), (CARD_ONE, 0)],
];

pub(super) fn add_all(input: &mut Input) {
    for pair in PAIRS {
        input.health_by_the_others_almanac(pair);
        input.entries_in_turn(pair);
        input.three_strings_apart(pair);
    }
    input.frames_of_a_superframe_in_turn();
}

impl Input {
    fn ask_both(&mut self, pair: Pair, slot: usize) {
        for (asker, channel) in pair {
            self.ask_row(asker, channel);
            self.ask_book(asker, [slot]);
        }
    }

    /// The first has a record of a satellite with B good; the other shows its entry with C =
    /// 0, then with C = 1, and is reset.
    fn health_by_the_others_almanac(&mut self, pair: Pair) {
        let [(first, channel), (other, others_channel)] = pair;
        let slot = 1 + self.random.below(SLOTS);
        let mut strings = self.satellite(slot as u128).strings;
        strings[1] = with_code(&strings[1], &B, 0);
        let three = self.three(slot);
        self.fresh();
        self.strings_by(first, channel, SOME_START, &strings);
        self.ask_both(pair, slot);
        for (day, c) in DAYS.into_iter().zip([0, 1]) {
            self.show_by((other, others_channel), &with_c(dated(three, day), c));
            self.ask_both(pair, slot);
        }
        self.ask(other, RESET, &[others_channel]);
        self.ask_both(pair, slot);
    }

    fn show_by(&mut self, (asker, channel): (Asker, u8), three: &Three) {
        self.ask(asker, RESET, &[channel]);
        let strings = self.as_some_pair(three);
        self.strings_by(asker, channel, SOME_START, &strings);
    }

    /// Of one slot, by the two in turn: newer days and older ones, the same day with greater,
    /// equal and lesser bits.
    fn entries_in_turn(&mut self, pair: Pair) {
        let three = self.three(7);
        let [first, second, third, fourth] = DAYS;
        let shown = [
            (second, 0),
            (first, 1),
            (third, 0),
            (third, 1),
            (third, 1),
            (third, 0),
            (second, 1),
            (fourth, 0),
        ];
        self.fresh();
        for ((day, c), who) in shown.into_iter().zip(pair.into_iter().cycle()) {
            self.show_by(who, &with_c(dated(three, day), c));
            self.ask_both(pair, 7);
        }
    }

    /// Bit k of `apart` tells which card has string k of the three: none is shown where they
    /// are apart.
    fn three_strings_apart(&mut self, pair: Pair) {
        for apart in 0..8 {
            self.fresh();
            for (index, string) in self.three(7).into_iter().enumerate() {
                let (asker, channel) = pair[apart >> index & 1];
                self.strings_by(asker, channel, SOME_START, &[string]);
            }
            self.ask_both(pair, 7);
        }
    }

    /// The cards fill the book together, a frame each.
    fn frames_of_a_superframe_in_turn(&mut self) {
        let (upload, satellite) = (self.upload(), self.satellite(9));
        self.fresh();
        for (number, (asker, channel)) in (1..=5).zip(PAIRS[0].into_iter().cycle()) {
            let start = SOME_START + 15 * number as u32;
            self.strings_by(asker, channel, start, &satellite.frame(&upload, number));
            for (asker, _) in PAIRS[0] {
                self.ask_book(asker, 1..=SLOTS);
            }
        }
    }
}
