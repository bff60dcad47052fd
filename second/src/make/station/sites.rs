//! Two sites with a station each, and the book of the one joined into that of the other.

mod again;
mod calls;
mod cards;
mod clashes;
mod every_bit;
mod nights;
mod payloads;
mod superframes;
mod three_books;

use std::slice;

use super::super::satellite::Day;
use super::super::Input;
use super::almanac::Three;
use super::blocks::Call;
use super::cards::{Asker, CARD_TWO};
use super::SOME_START;
use crate::request::{JOIN, OTHER_STATION};
use crate::station::book::SLOTS;
use crate::station::frame::STRINGS_IN_A_FRAME;

/// Days that follow one another, over the end of a period.
const DAYS: [Day; 4] = [(6, 1460), (6, 1461), (7, 1), (7, 2)];

/// A call, and who makes it.
type CallBy = (Asker, Call);

/// What a site is told, in this order.
type History = [CallBy];

/// One by one, or in blocks.
type Telling = fn(&mut Input, &History);

/// A channel, and who asks for it.
type Row = (Asker, u8);

/// Channels of a site that hears one sky with others.
const CHANNELS_OF_A_SITE: usize = 2;

pub(in super::super) fn add_all(input: &mut Input) {
    payloads::add_all(input);
    clashes::add_all(input);
    every_bit::add_all(input);
    superframes::add_all(input);
    again::add_all(input);
    calls::add_all(input);
    nights::add_all(input);
    three_books::add_all(input);
    cards::add_all(input);
}

impl Input {
    pub(super) fn other_station(&mut self) {
        self.request(OTHER_STATION, &[]);
    }

    pub(super) fn join(&mut self) {
        self.request(JOIN, &[]);
    }

    fn tell(&mut self, history: &History) {
        for (asker, call) in history {
            self.calls_by(*asker, slice::from_ref(call));
        }
    }

    /// A block for each run of calls by the same card.
    fn tell_in_blocks(&mut self, history: &History) {
        for run in history.chunk_by(|(asker, _), (next, _)| asker == next) {
            let calls: Vec<Call> = run.iter().map(|(_, call)| call.clone()).collect();
            self.block_by(run[0].0, &calls);
        }
    }

    /// Each is told its own in a fresh station. The first of the two is then in use.
    fn sites(&mut self, tell: Telling, histories: [&History; 2]) {
        let [first, other] = histories;
        for history in [other, first] {
            self.other_station();
            self.fresh();
            tell(self, history);
        }
    }

    /// The greater entries of all slots, and the summary.
    fn ask_entries(&mut self) {
        self.ask_slots(1..=SLOTS);
        self.ask_summary();
    }

    /// What is said of these channels, and the whole book.
    fn ask_site(&mut self, rows: &[Row]) {
        for (asker, channel) in rows {
            self.ask_row(*asker, *channel);
        }
        self.ask_book(Asker::Unnamed, 1..=SLOTS);
    }

    /// The one in use is asked first, and is then in use again.
    fn ask_both_sites(&mut self, rows: &[Row]) {
        for _ in 0..2 {
            self.ask_site(rows);
            self.other_station();
        }
    }

    /// The second is joined into the first; then, as if nothing had been joined yet, the first
    /// into the second.
    fn joined_both_ways(&mut self, histories: [&History; 2], rows: &[Row]) {
        let [first, second] = histories;
        self.sites(Input::tell, [first, second]);
        self.ask_both_sites(rows);
        self.join();
        self.ask_both_sites(rows);
        self.sites(Input::tell_in_blocks, [second, first]);
        self.join();
        self.ask_site(rows);
    }

    /// Entries one after another on a channel, a frame each.
    fn shown_in_turn(&mut self, (asker, channel): Row, threes: &[Three]) -> Vec<CallBy> {
        let starts = (SOME_START..).step_by(STRINGS_IN_A_FRAME);
        let mut history = Vec::new();
        for (start, three) in starts.zip(threes) {
            let strings = self.as_some_pair(three);
            let offers = self.offers(channel, start, &strings);
            history.extend(offers.into_iter().map(|call| (asker, call)));
        }
        history
    }

    /// So many records of one sky, as sites with channels of their own hear it by card one: with
    /// all that befalls strings, and almanacs that the sites have in common.
    fn one_sky_at<const SITES: usize>(&mut self, count: usize) -> [Vec<CallBy>; SITES] {
        let channels = CHANNELS_OF_A_SITE * SITES;
        // In the first half of a frame all strings are early.
        let feed = self.feed(channels).skip(channels * STRINGS_IN_A_FRAME);
        let mut histories = [const { Vec::new() }; SITES];
        for record in feed.take(count) {
            let site = usize::from(record.channel) % SITES;
            histories[site].push((Asker::Unnamed, Call::Offer(record)));
        }
        histories
    }
}
