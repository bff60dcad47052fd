//! Offers of every sort to a station whose tallies are near their limit.

use super::super::Input;
use super::blocks::Call;
use super::cards::{Asker, CARD_ONE, CARD_TWO};
use super::SOME_START;
use crate::request::{RESET, TALLIES};
use crate::station::card::CHANNELS_OF_A_CARD;
use crate::station::tallies::CAUSES;
use crate::station::CHANNELS;
use crate::string::NavString;

/// More than it takes to reach the limit.
const OFFERS_OF_A_SORT: usize = 6;

/// All sorts in some order, each so often, on one channel of each card.
const CHANNEL_OF_ALL_SORTS: u8 = 23;
const ROUNDS_OF_ALL_SORTS: usize = 3;
const CHANNEL_OF_CARD_TWO: u8 = 47;

/// A fresh station is near no limit, so it comes once both cards have been there.
pub(in super::super) fn add_all(input: &mut Input) {
    input.ask_tallies_of_all();
    input.taken_offers_to_the_limit(Asker::Unnamed, 0);
    input.refused_offers_to_the_limit(Asker::Unnamed, 3);
    input.offers_of_all_sorts(Asker::Unnamed, CHANNEL_OF_ALL_SORTS);
    input.reset(CHANNEL_OF_ALL_SORTS);
    input.ask_tallies_of_all();
    input.offers_of_all_sorts(Asker::Unnamed, CHANNEL_OF_ALL_SORTS);
    input.every_channel_of_card_two_to_the_limit();
    input.fresh();
    input.ask_tallies_of_all();
    input.offers_of_all_sorts(Asker::Unnamed, CHANNEL_OF_ALL_SORTS);
    input.ask_tallies_of_both_cards();
    input.offers_of_all_sorts(CARD_TWO, CHANNEL_OF_CARD_TWO);
    input.ask_tallies_of_both_cards();
}

impl Input {
    fn ask_tallies_of_all(&mut self) {
        for channel in 0..CHANNELS_OF_A_CARD {
            self.request(TALLIES, &[channel as u8]);
        }
    }

    /// Each card is asked for all 48.
    fn ask_tallies_of_both_cards(&mut self) {
        for asker in [CARD_ONE, CARD_TWO] {
            for channel in 0..CHANNELS {
                self.ask(asker, TALLIES, &[channel as u8]);
            }
        }
    }

    /// The tallies are asked for after each.
    fn offer_and_count(&mut self, asker: Asker, channel: u8, offers: &[Call]) {
        for offer in offers {
            self.calls_by(asker, std::slice::from_ref(offer));
            self.ask(asker, TALLIES, &[channel]);
        }
    }

    /// The first channel has clean strings, the next repaired ones, the third a string that it
    /// holds already.
    fn taken_offers_to_the_limit(&mut self, asker: Asker, first: u8) {
        let frame = self.frame(1);
        let clean = self.offers(first, SOME_START, &frame[..OFFERS_OF_A_SORT]);
        self.offer_and_count(asker, first, &clean);
        let repaired: Vec<NavString> = frame.iter().map(with_a_flip).collect();
        let repaired = self.offers(first + 1, SOME_START, &repaired[..OFFERS_OF_A_SORT]);
        self.offer_and_count(asker, first + 1, &repaired);
        let again = [frame[0]; 1 + OFFERS_OF_A_SORT];
        let held = self.offers(first + 2, SOME_START, &again);
        self.offer_and_count(asker, first + 2, &held);
    }

    /// From the first channel on one for each cause, where a string is held.
    fn refused_offers_to_the_limit(&mut self, asker: Asker, first: u8) {
        let held = self.frame(2)[0];
        for (index, channel) in (first..first + CAUSES.len() as u8).enumerate() {
            let first = self.offers(channel, SOME_START, &[held]);
            self.offer_and_count(asker, channel, &first);
            for _ in 0..OFFERS_OF_A_SORT {
                let refused = self.refused_on_channel(channel, &held);
                self.offer_and_count(asker, channel, &refused[index..=index]);
            }
        }
    }

    /// Channels 24 to 26 have taken strings, 27 to 36 refused ones and so have 37 to 46, and
    /// the last has all sorts, before and after a reset.
    fn every_channel_of_card_two_to_the_limit(&mut self) {
        self.ask_tallies_of_both_cards();
        self.taken_offers_to_the_limit(CARD_TWO, 24);
        self.refused_offers_to_the_limit(CARD_TWO, 27);
        self.refused_offers_to_the_limit(CARD_TWO, 37);
        self.offers_of_all_sorts(CARD_TWO, CHANNEL_OF_CARD_TWO);
        self.ask(CARD_TWO, RESET, &[CHANNEL_OF_CARD_TWO]);
        self.ask_tallies_of_both_cards();
        self.offers_of_all_sorts(CARD_TWO, CHANNEL_OF_CARD_TWO);
    }

    /// One for each of the ten causes, in the order of tests.
    pub(super) fn refused_on_channel(&mut self, channel: u8, held: &NavString) -> Vec<Call> {
        let mut refused = self.refused_offers(channel, held);
        refused.remove(0);
        refused
    }

    /// A string that is held; then clean ones, repaired ones, the held one again and all
    /// causes, in some order.
    fn offers_of_all_sorts(&mut self, asker: Asker, channel: u8) {
        let mut frame = self.frame(3);
        let held = frame.remove(0);
        let first = self.offers(channel, SOME_START, &[held]);
        self.offer_and_count(asker, channel, &first);
        let mut offers = Vec::new();
        for strings in frame.chunks(2).take(ROUNDS_OF_ALL_SORTS) {
            let strings = [strings[0], with_a_flip(&strings[1]), held];
            offers.extend(self.offers(channel, SOME_START, &strings));
            offers.extend(self.refused_on_channel(channel, &held));
        }
        let offers = self.shuffled(offers);
        self.offer_and_count(asker, channel, &offers);
    }
}

fn with_a_flip(string: &NavString) -> NavString {
    string.flipped(&[40])
}
