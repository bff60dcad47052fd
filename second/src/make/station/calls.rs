//! Calls of all kinds on two stations, without an end, as the program of a card makes them: both
//! cards of either site follow satellites, and what a call may have changed is asked after it.

mod questions;

use std::collections::VecDeque;
use std::mem;

use super::super::feed::Feed;
use super::super::hearing::{heard, Hearing, Sent};
use super::super::satellite::Day;
use super::super::{Input, WRONG_LENGTHS};
use super::blocks::refused_fields::refused_fields;
use super::cards::skies::Sky;
use super::cards::{first_channel, Asker};
use crate::block::{offer_field, remark_field, reset_field};
use crate::listing::Record;
use crate::random::SplitMix64;
use crate::request::{append, whole_requests, BLOCK, OFFER, RESET};
use crate::station::card::{CHANNELS_OF_A_CARD, ONE, TWO};
use crate::station::reception::{receive, Received};
use crate::words::kinds::{ALMANAC_SLOT, EVEN};
use questions::About;

/// Then both stations are fresh again, and other channels hear other satellites.
const REQUESTS_OF_A_NIGHT: usize = 1400;

/// Channels of a card that hear something in a night: those with even numbers hear well, and
/// most of the others poorly.
const EVEN_CHANNELS_IN_USE: usize = 3;
const ODD_CHANNELS_IN_USE: usize = 1;
const CHANNELS_IN_USE: usize = EVEN_CHANNELS_IN_USE + ODD_CHANNELS_IN_USE;

const MOST_FIELDS: usize = 24;
const LONGEST_REMARK: usize = 16;

/// Cards that there are not; the last channel, and such as there are not.
const NO_CARDS: [u8; 3] = [0, 3, 255];
const STRANGE_CHANNELS: [u8; 3] = [47, 48, 255];

/// Channel and epoch, before the string of an offer.
const HEAD_OF_AN_OFFER: usize = 5;

/// What the two cards of a site hear.
type Site = [Ear; 2];

struct Ear {
    sky: Sky,
    channels: Vec<u8>,
    /// The last string that could be read.
    last: Option<Sent>,
    /// The slot that one of its strings has last named.
    slot: u8,
}

pub(in super::super) struct Calls {
    input: Input,
    /// The first is the one in use.
    sites: [Site; 2],
    requests_tonight: usize,
    ready: VecDeque<Vec<u8>>,
}

impl Calls {
    pub(in super::super) fn new(seed: u64) -> Calls {
        let mut input = Input::new(seed);
        Calls {
            sites: input.two_sites(),
            input,
            requests_tonight: 0,
            ready: VecDeque::new(),
        }
    }

    pub(in super::super) fn next_request(&mut self) -> Vec<u8> {
        loop {
            if let Some(request) = self.ready.pop_front() {
                return request;
            }
            self.next_call();
            self.make_ready();
        }
    }

    /// The requests that are written, each for itself.
    fn make_ready(&mut self) {
        let written = mem::take(&mut self.input.bytes);
        for request in whole_requests(&written) {
            let mut bytes = Vec::new();
            append(&mut bytes, request.op, request.payload);
            self.ready.push_back(bytes);
        }
        self.requests_tonight += self.ready.len();
    }

    fn next_call(&mut self) {
        if self.requests_tonight >= REQUESTS_OF_A_NIGHT {
            self.next_night();
        }
        match self.input.random.below(100) {
            0..63 => self.offer(),
            63..88 => self.block(),
            88..98 => self.reset(),
            98 => self.exchange(),
            _ => self.join(),
        }
    }

    fn next_night(&mut self) {
        for _ in 0..2 {
            self.exchange();
            self.input.fresh();
            self.ask_about(&[], 6);
        }
        self.sites = self.input.two_sites();
        self.requests_tonight = 0;
    }

    fn offer(&mut self) {
        let card = self.some_card();
        let (record, about) = self.hear(card);
        let asker = self.input.some_asker(card);
        let mut payload = record.to_bytes();
        if self.input.random.below(60) == 0 {
            let length = self.input.random.one_of(&WRONG_LENGTHS);
            payload.resize(HEAD_OF_AN_OFFER + length, 0);
        }
        self.input.ask(asker, OFFER, &payload);
        self.ask_about(&[about], 3);
    }

    /// What a card hears in a while. One block in eight has a field that is refused.
    fn block(&mut self) {
        let card = self.some_card();
        let asker = self.input.some_asker(card);
        let count = self.input.random.below(MOST_FIELDS + 1);
        let (mut fields, mut abouts) = (Vec::new(), Vec::new());
        for _ in 0..count {
            let (field, about) = self.field(card);
            fields.push(field);
            abouts.extend(about);
        }
        if self.input.random.below(8) == 0 {
            let place = self.input.random.below(count + 1);
            let refused = refused_fields();
            let which = self.input.random.below(refused.len());
            fields.insert(place, refused[which].clone());
        }
        self.input.ask(asker, BLOCK, &fields.concat());
        self.ask_about(&abouts, 3);
    }

    fn field(&mut self, card: u8) -> (Vec<u8>, Option<About>) {
        match self.input.random.below(100) {
            0 => {
                let channel = self.channel_to_reset(card);
                (reset_field(channel), Some(About::row(card, channel)))
            }
            1..=6 => {
                let length = self.input.random.below(LONGEST_REMARK + 1);
                (remark_field(&self.input.random.bytes(length)), None)
            }
            _ => {
                let (record, about) = self.hear(card);
                (offer_field(&record), Some(about))
            }
        }
    }

    fn reset(&mut self) {
        let card = self.some_card();
        let channel = self.channel_to_reset(card);
        let asker = self.input.some_asker(card);
        self.input.ask(asker, RESET, &[channel]);
        self.ask_about(&[About::row(card, channel)], 3);
    }

    fn exchange(&mut self) {
        self.input.other_station();
        self.sites.swap(0, 1);
        self.ask_about(&[], 6);
    }

    fn join(&mut self) {
        self.input.join();
        self.ask_about(&[], 12);
    }

    fn some_card(&mut self) -> u8 {
        self.input.random.one_of(&[ONE, TWO])
    }

    fn ear(&mut self, card: u8) -> &mut Ear {
        let [site, _] = &mut self.sites;
        match card {
            TWO => &mut site[1],
            _ => &mut site[0],
        }
    }

    fn channel_in_use(&mut self, card: u8) -> u8 {
        let which = self.input.random.below(CHANNELS_IN_USE);
        self.ear(card).channels[which]
    }

    /// One in four hears something, or records would not stay long.
    fn channel_to_reset(&mut self, card: u8) -> u8 {
        match self.input.random.below(8) {
            0..=1 => self.channel_in_use(card),
            2..=6 => self.input.channel_of(card),
            _ => self.input.strange_channel(card),
        }
    }

    /// The next record that a card hears. Now and then it is the last string again, with a bit
    /// to repair; or its caller takes another channel for it.
    fn hear(&mut self, card: u8) -> (Record, About) {
        let again = self.input.random.below(40) == 0;
        let last = self.ear(card).last.clone().filter(|_| again);
        let mut record = match last {
            Some(sent) => heard(&mut self.input.random, Hearing::Flips(1), &sent),
            None => self.ear(card).sky.next_record(),
        };
        let (m, slot) = self.ear(card).read(&record);
        if self.input.random.below(60) == 0 {
            record.channel = self.input.strange_channel(card);
        }
        let channel = record.channel;
        let about = About {
            card,
            channel,
            slot,
            m,
        };
        (record, about)
    }
}

impl Ear {
    /// m of the string, 0 where it cannot be read, and the slot that was last named: an even
    /// almanac string names one.
    fn read(&mut self, record: &Record) -> (usize, u8) {
        let Ok(Received { string, .. }) = receive(&record.symbols) else {
            return (0, self.slot);
        };
        if EVEN.strings.contains(&string.m()) {
            self.slot = string.number(ALMANAC_SLOT.bits) as u8;
        }
        self.last = Some(Sent {
            channel: record.channel,
            epoch: record.epoch,
            string,
        });
        (string.m(), self.slot)
    }
}

impl Input {
    /// Of one day, so that either may have the greater entries.
    fn two_sites(&mut self) -> [Site; 2] {
        let day = self.day_of_a_night();
        [(); 2].map(|()| [ONE, TWO].map(|card| self.ear_of(card, day)))
    }

    /// Near the end of a period. In one night of eight a navigation record cannot tell N4.
    fn day_of_a_night(&mut self) -> Day {
        let period = match self.random.below(8) {
            0 => 21 + self.random.below(9),
            _ => 1 + self.random.below(20),
        };
        (period as u128, 1455 + self.random.below(7) as u128)
    }

    fn ear_of(&mut self, card: u8, day: Day) -> Ear {
        let numbers = self.shuffled((0..CHANNELS_OF_A_CARD as u8).collect());
        let (even, odd): (Vec<u8>, Vec<u8>) = numbers.iter().partition(|&number| number % 2 == 0);
        let numbers = [&even[..EVEN_CHANNELS_IN_USE], &odd[..ODD_CHANNELS_IN_USE]].concat();
        let first = first_channel(card);
        let random = SplitMix64::new(self.random.number());
        let feed = Feed::begun_on(day, random, numbers.iter().copied());
        Ear {
            sky: Sky::of(feed, CHANNELS_IN_USE, (card, first)),
            channels: numbers.iter().map(|number| first + number).collect(),
            last: None,
            slot: 1,
        }
    }

    /// Card one in either form; now and then a card that there is not.
    fn some_asker(&mut self, card: u8) -> Asker {
        match (self.random.below(40), card) {
            (0, _) => Asker::Card(self.random.one_of(&NO_CARDS)),
            (1..28, ONE) => Asker::Unnamed,
            _ => Asker::Card(card),
        }
    }

    fn channel_of(&mut self, card: u8) -> u8 {
        first_channel(card) + self.random.below(CHANNELS_OF_A_CARD) as u8
    }

    /// The last one, one above, or one of the other card's.
    fn strange_channel(&mut self, card: u8) -> u8 {
        match (self.random.below(4), card) {
            (0, ONE) => self.channel_of(TWO),
            (0, _) => self.channel_of(ONE),
            _ => self.random.one_of(&STRANGE_CHANNELS),
        }
    }
}
