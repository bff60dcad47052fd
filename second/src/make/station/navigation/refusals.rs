//! Every card asks for every channel and slot, in every room; several wrongs at once; payloads
//! of no such length.

use super::super::super::Input;
use super::{Place, Told, ALMANAC_CHANNEL, PLACES, RIGHT_ROOM, SLOTS, SOME_TIME};
use crate::request::card::NAMING_THEIR_CARD;
use crate::request::{FIVE_OF, LARGEST_ROOM, NAVIGATION};
use crate::station::card::{ONE, TWO};

const CARDS: [u8; 5] = [0, 1, 2, 3, 255];
const CHANNELS: [u8; 6] = [0, 23, 24, 47, 48, 255];

/// Those that there are, with their cards.
const ENDS_OF_CARDS: [(u8, u8); 4] = [(ONE, 0), (ONE, 23), (TWO, 24), (TWO, 47)];

/// The last of them is none.
const ROOMS: [u16; 8] = [0, 1, 319, 320, 321, 640, LARGEST_ROOM, LARGEST_ROOM + 1];

pub(super) fn add_all(input: &mut Input) {
    input.fresh();
    input.every_card_channel_and_slot();
    input.everything_present();
    input.every_card_channel_and_slot();
    input.payloads_of_other_lengths();
    input.several_wrongs_in_one_record();
}

impl Input {
    fn every_card_channel_and_slot(&mut self) {
        for card in CARDS {
            for channel in CHANNELS {
                for room in ROOMS {
                    self.navigation_in(card, channel, room);
                }
                self.request(FIVE_OF, &[card, channel]);
            }
            self.ask_carriers(card, SLOTS);
        }
    }

    /// On the first and the last channel of each card.
    fn everything_present(&mut self) {
        self.fresh_with_some_book();
        for (card, channel) in ENDS_OF_CARDS {
            let strings = self.told(SOME_TIME);
            let place = Place {
                card,
                channel,
                ..PLACES[0]
            };
            self.hear(place, &strings);
            self.ask_navigation(place);
        }
    }

    /// Where all would be granted in the right length.
    fn payloads_of_other_lengths(&mut self) {
        let [high, low] = RIGHT_ROOM.to_be_bytes();
        let whole = [ONE, 23, high, low, 0, 0];
        for op in NAMING_THEIR_CARD {
            for length in 0..=whole.len() {
                self.request(op, &whole[..length]);
            }
            for length in [16, 256, 1024] {
                self.request(op, &vec![1; length]);
            }
        }
        for room in [LARGEST_ROOM + 320, 0x4001, 0x4140, 0x8140, u16::MAX] {
            for card in [0, ONE] {
                self.navigation_in(card, 23, room);
            }
        }
        self.request(NAVIGATION, &[ONE, 23, low, high]);
    }

    /// String 5 or the entry missing or both there, each with NT, N4 and the room good and
    /// wrong.
    fn several_wrongs_in_one_record(&mut self) {
        self.fresh();
        let three = self.three(7);
        self.show(ALMANAC_CHANNEL, &three);
        let mut place = PLACES[0];
        for (n, last) in [(7, 5), (7, 4), (8, 5), (8, 4)] {
            for day in [0, 1, 1461, 1462] {
                for period in [0, 1, 21, 22] {
                    let told = Told {
                        n,
                        period,
                        day,
                        ..SOME_TIME
                    };
                    let strings = self.told(told);
                    place = place.next();
                    self.hear(place, &strings[..last]);
                    for room in [RIGHT_ROOM, 0, RIGHT_ROOM - 1] {
                        self.navigation_in(place.card, place.channel, room);
                    }
                }
            }
        }
    }
}
