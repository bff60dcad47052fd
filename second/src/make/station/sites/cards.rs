//! What two sites are told, told to the two cards of one station: its book is the joined one.

use super::super::super::Input;
use super::super::blocks::{Call, CALLS_A_SECOND};
use super::super::cards::Asker;
use super::{CallBy, History, Row, Telling, CARD_TWO};
use crate::listing::Record;
use crate::station::card::CHANNELS_OF_A_CARD;
use crate::station::CHANNELS;

/// As many as two sites hear in a superframe.
const RECORDS: usize = 300;

/// The channels of each site.
const CHANNELS_OF_SITES: [[u8; 2]; 2] = [[0, 2], [1, 3]];

pub(super) fn add_all(input: &mut Input) {
    let [first, second] = input.one_sky_at::<2>(RECORDS);
    input.at_two_sites(&first, &second);
    let second: Vec<CallBy> = second.iter().map(by_card_two).collect();
    let one_after_the_other = [&first[..], &second].concat();
    input.on_two_cards(Input::tell_in_blocks, &one_after_the_other);
    let the_other_first = [&second[..], &first].concat();
    input.on_two_cards(Input::tell_in_blocks, &the_other_first);
    input.on_two_cards(Input::tell_in_blocks, &in_turn(&first, &second));
    let mixed = input.mixed(&first, &second);
    input.on_two_cards(Input::tell, &mixed);
}

/// 24 higher. A channel of the other card stays one, and so does one that there is not.
fn on_card_two(channel: u8) -> u8 {
    let [own, all] = [CHANNELS_OF_A_CARD, CHANNELS].map(|count| count as u8);
    match channel < all {
        true => (channel + own) % all,
        false => channel,
    }
}

/// A history of two sites has offers alone.
fn by_card_two((_, call): &CallBy) -> CallBy {
    let call = match call {
        Call::Offer(record) => Call::Offer(Record {
            channel: on_card_two(record.channel),
            ..*record
        }),
        other => other.clone(),
    };
    (CARD_TWO, call)
}

/// A second of each.
fn in_turn(first: &History, second: &History) -> Vec<CallBy> {
    let mut seconds = [first, second].map(|history| history.chunks(CALLS_A_SECOND));
    let mut history = Vec::new();
    loop {
        let next: Vec<&History> = seconds.iter_mut().filter_map(Iterator::next).collect();
        if next.is_empty() {
            return history;
        }
        history.extend(next.concat());
    }
}

impl Input {
    /// In any order, but that each keeps its own.
    fn mixed(&mut self, first: &History, second: &History) -> Vec<CallBy> {
        let mut rests = [first, second];
        let mut history = Vec::new();
        while let [[one, ..], [other, ..]] = rests {
            let site = self.random.below(2);
            history.push([one, other][site].clone());
            rests[site] = &rests[site][1..];
        }
        history.extend(rests.concat());
        history
    }

    fn at_two_sites(&mut self, first: &History, second: &History) {
        self.sites(Input::tell_in_blocks, [first, second]);
        self.join();
        let [own, others] = CHANNELS_OF_SITES.map(|channels| channels.map(of_card_one));
        self.ask_site(&own);
        self.other_station();
        self.ask_site(&others);
    }

    fn on_two_cards(&mut self, tell: Telling, history: &History) {
        self.fresh();
        tell(self, history);
        let [of_card_one, of_card_two] = [
            CHANNELS_OF_SITES[0].map(of_card_one),
            CHANNELS_OF_SITES[1].map(|channel| (CARD_TWO, on_card_two(channel))),
        ];
        self.ask_site(&[of_card_one, of_card_two].concat());
    }
}

fn of_card_one(channel: u8) -> Row {
    (Asker::Unnamed, channel)
}
