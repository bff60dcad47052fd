//! The summary of the book, asked among the calls: entries that change it in each way, and
//! calls that leave it as it is.

use std::iter::successors;

use super::super::satellite::{day_after, Day};
use super::super::Input;
use super::almanac::{dated, with_c, Three};
use super::blocks::{block_of, Call, CALLS_A_SECOND};
use super::refusals::WRONG_CHANNELS;
use super::{NEXT_START, SOME_START};
use crate::alter::{codes_out_of_range, with_code};
use crate::block::field;
use crate::listing::Record;
use crate::request::SUMMARY;
use crate::station::book::SLOTS;
use crate::station::card::CHANNELS_OF_A_CARD;
use crate::words::kinds::{ALMANAC_DAY, ALMANAC_SLOT, H};

pub(in super::super) fn add_all(input: &mut Input) {
    input.stories();
    input.oldest_of_a_full_book();
    input.each_string_of_a_frame_as_the_last();
    input.entries_that_are_not_shown();
    input.strings_refused_and_held();
    input.resets_of_every_channel();
    input.blocks_cut_and_refused();
    input.entries_at_random();
    input.summary_over_a_long_run();
    input.summary_after_exchanges();
    input.summaries_with_payload();
}

/// Days that follow one another, over the end of a period; and the least and the greatest
/// that there are.
const FIRST: Day = (6, 1460);
const SECOND: Day = (6, 1461);
const THIRD: Day = (7, 1);
const FOURTH: Day = (7, 2);
const FIFTH: Day = (7, 3);
const LEAST: Day = (1, 1);
const GREATEST: Day = (31, 1461);

/// Slot, day and C of an entry. All else is the same in all entries of a slot: the same
/// three are the same entry, and of one day that with C = 1 is the greater.
type Shown = (usize, Day, u128);

/// Entries as they are shown one after another.
const STORIES: [&[Shown]; 8] = [
    // One slot: a newer day, an older one, the same again, greater bits, lesser bits.
    &[
        (3, FIRST, 0),
        (3, THIRD, 0),
        (3, SECOND, 1),
        (3, THIRD, 0),
        (3, THIRD, 1),
        (3, THIRD, 0),
        (3, FOURTH, 0),
    ],
    // The only oldest gives way: to a day between, to the newest day, to a newer one.
    &[
        (1, FIRST, 1),
        (24, FOURTH, 1),
        (1, SECOND, 0),
        (1, FOURTH, 0),
        (1, FIFTH, 0),
        (24, FIFTH, 0),
    ],
    // The older one comes later; the newest gives way to a newer one.
    &[
        (24, THIRD, 0),
        (1, SECOND, 0),
        (24, FOURTH, 0),
        (2, FIRST, 0),
        (24, FIFTH, 0),
        (2, FIFTH, 0),
    ],
    // Two of the oldest day give way one by one.
    &[
        (5, FIRST, 0),
        (6, FIRST, 0),
        (7, FOURTH, 0),
        (5, SECOND, 0),
        (6, THIRD, 0),
        (5, FIFTH, 0),
    ],
    // Two of the newest day.
    &[
        (8, FIRST, 0),
        (9, SECOND, 0),
        (10, SECOND, 0),
        (10, THIRD, 0),
        (9, THIRD, 0),
    ],
    // Between the oldest and the newest.
    &[
        (11, FIRST, 0),
        (12, FIFTH, 0),
        (13, SECOND, 0),
        (13, FOURTH, 0),
        (13, FOURTH, 1),
        (13, THIRD, 1),
        (11, SECOND, 0),
    ],
    // Entries that are not taken: equal to the oldest and the newest, and less.
    &[
        (14, SECOND, 1),
        (15, FOURTH, 1),
        (14, SECOND, 1),
        (15, FOURTH, 1),
        (14, FIRST, 1),
        (14, SECOND, 0),
        (15, THIRD, 1),
        (15, FOURTH, 0),
    ],
    // The ends of the days.
    &[
        (16, GREATEST, 0),
        (17, LEAST, 0),
        (18, LEAST, 0),
        (17, GREATEST, 0),
        (18, GREATEST, 0),
        (18, LEAST, 1),
    ],
];

/// Channels that a story's entries are shown on in turn.
const CHANNELS_OF_A_STORY: u8 = 3;

impl Input {
    pub(in super::super) fn ask_summary(&mut self) {
        self.request(SUMMARY, &[]);
    }

    /// Each call as a request of its own, each as a block of its own, all as one block.
    fn summary_after(&mut self, calls: &[Call]) {
        self.summary_after_each(calls);
        self.summary_after_blocks(calls, 1);
        self.summary_after_blocks(calls, calls.len());
    }

    /// To a fresh station, one by one.
    fn summary_after_each(&mut self, calls: &[Call]) {
        self.fresh();
        self.ask_summary();
        for call in calls.chunks(1) {
            self.one_by_one(call);
            self.ask_summary();
        }
    }

    /// To a fresh station, so many to a block.
    fn summary_after_blocks(&mut self, calls: &[Call], length: usize) {
        self.fresh();
        for calls in calls.chunks(length) {
            self.block(&block_of(calls));
            self.ask_summary();
        }
    }

    /// On a channel that holds nothing else.
    fn showing(&mut self, channel: u8, three: &Three) -> Vec<Call> {
        let strings = self.as_some_pair(three);
        let mut calls = vec![Call::Reset { channel }];
        calls.extend(self.offers(channel, SOME_START, &strings));
        calls
    }

    fn stories(&mut self) {
        for story in STORIES {
            self.story(story);
        }
    }

    fn story(&mut self, story: &[Shown]) {
        let threes: Vec<Three> = (1..=SLOTS).map(|slot| self.three(slot)).collect();
        let mut calls = Vec::new();
        for (channel, &(slot, day, c)) in (0..CHANNELS_OF_A_STORY).cycle().zip(story) {
            let three = with_c(dated(threes[slot - 1], day), c);
            calls.extend(self.showing(channel, &three));
        }
        self.summary_after(&calls);
    }

    /// Each slot has a day of its own. Then the oldest gives way to a day after the newest,
    /// until all have done so. The other way round each new slot is the oldest, and nothing
    /// gives way.
    fn oldest_of_a_full_book(&mut self) {
        let slots = self.shuffled((1..=SLOTS).collect());
        let days = successors(Some(FIRST), |&day| Some(day_after(day)));
        let twice = slots.iter().chain(&slots);
        let mut story: Vec<Shown> = twice.zip(days).map(|(&slot, day)| (slot, day, 0)).collect();
        self.story(&story);
        story.reverse();
        self.story(&story);
    }

    /// String 5 shows all pairs at once, string 6 two of them. The days are any, so some
    /// entries are new, some greater and some less than those in the book.
    fn each_string_of_a_frame_as_the_last(&mut self) {
        let mut calls = Vec::new();
        for last in 5..=15 {
            for number in [1, 5] {
                let mut strings = self.frame(number);
                strings.rotate_left(last);
                calls.push(Call::Reset { channel: 4 });
                calls.extend(self.offers(4, SOME_START, &strings));
            }
        }
        self.summary_after(&calls);
    }

    /// A word out of range, or no period stated; before and after an entry of that slot.
    fn entries_that_are_not_shown(&mut self) {
        let three = dated(self.three(19), THIRD);
        let without_period = dated(three, (0, 1461));
        let mut hidden = self.showing(5, &without_period);
        for (index, word) in [(0, &ALMANAC_DAY), (1, &ALMANAC_SLOT), (2, &H)] {
            for code in codes_out_of_range(word).into_iter().take(8) {
                let mut wrong = dated(three, FOURTH);
                wrong[index] = with_code(&wrong[index], word, code);
                hidden.extend(self.showing(5, &wrong));
            }
        }
        let shown = self.showing(6, &three);
        self.summary_after(&[&hidden[..], &shown, &hidden].concat());
    }

    /// A pair lacks its odd half, which is refused by each number; then it is taken, and
    /// refused again, also in conflict. The three are held already when they come again.
    fn strings_refused_and_held(&mut self) {
        let [string_5, even, odd] = self.three(20);
        let first_two = self.offers(0, SOME_START, &[string_5, even]);
        let last = self.offers(0, SOME_START, &[odd]);
        let refused = self.refused_offers(0, &odd);
        let but_the_conflict = &refused[..refused.len() - 1];
        let with_repair = odd.flipped(&[40]);
        let again = self.offers(0, SOME_START, &[string_5, even, odd, with_repair]);
        let calls = [&first_two, but_the_conflict, &last, &refused, &again];
        self.summary_after(&calls.concat());
    }

    /// Of the one that has filled the book, of others, of channels that are not its card's; then
    /// an earlier frame.
    fn resets_of_every_channel(&mut self) {
        let (frame, earlier) = (self.frame(3), self.frame(4));
        let mut calls = self.offers(7, NEXT_START, &frame);
        let channels = (0..CHANNELS_OF_A_CARD as u8).chain(WRONG_CHANNELS);
        calls.extend(channels.map(|channel| Call::Reset { channel }));
        calls.extend(self.offers(7, SOME_START, &earlier));
        self.summary_after(&calls);
    }

    /// A block with one entry, cut at every byte; then two entries with a refused field
    /// between them, an empty block, the second entry in a remark, and as it should be.
    fn blocks_cut_and_refused(&mut self) {
        let three = self.three(21);
        let block = block_of(&self.showing(8, &dated(three, THIRD)));
        for length in 0..=block.len() {
            self.fresh();
            self.block(&block[..length]);
            self.ask_summary();
        }
        let newer = block_of(&self.showing(8, &dated(three, FOURTH)));
        let other = self.three(22);
        let second = block_of(&self.showing(9, &dated(other, SECOND)));
        let remark = block_of(&[Call::Remark(second.clone())]);
        let refused = [&newer[..], &field(0, &[]), &second].concat();
        for block in [&refused[..], &[], &remark, &second] {
            self.block(block);
            self.ask_summary();
        }
    }

    /// Few slots and few days: all kinds of changes come, one after another.
    fn entries_at_random(&mut self) {
        for _ in 0..30 {
            self.fresh();
            for _ in 0..12 {
                let slot = self.random.one_of(&[1, 2, SLOTS]);
                let day = self.random.one_of(&[FIRST, SECOND, THIRD, FOURTH, FIFTH]);
                let three = dated(self.three(slot), day);
                let channel = self.random.below(CHANNELS_OF_A_CARD) as u8;
                self.show(channel, &three);
                self.ask_summary();
            }
        }
    }

    /// Two channels over several superframes, and the same a second to a block.
    fn summary_over_a_long_run(&mut self) {
        let calls: Vec<Call> = self.feed(2).take(1200).map(Call::Offer).collect();
        self.summary_after_each(&calls);
        self.summary_after_blocks(&calls, CALLS_A_SECOND);
        self.ask_slots(1..=SLOTS);
    }

    /// The same offers three times, over several days and in other orders.
    fn summary_after_exchanges(&mut self) {
        let mut records: Vec<Record> = self.feed(3).take(500).collect();
        for _ in 0..3 {
            self.fresh();
            for record in &records {
                self.offer_record(record);
            }
            self.ask_summary();
            self.exchange_neighbours(&mut records, |record| record.channel);
        }
    }

    /// Of an empty book and of one that has something.
    fn summaries_with_payload(&mut self) {
        let frame = self.frame(1);
        self.fresh();
        for strings in [&[][..], &frame] {
            self.offer_in_frame(10, SOME_START, strings);
            for payload in [&[0][..], &[1], &[SUMMARY], &[0, 0], &[255; 16]] {
                self.request(SUMMARY, payload);
            }
            for length in [255, 256, 257, 4096] {
                self.request(SUMMARY, &vec![0; length]);
            }
            self.ask_summary();
        }
        self.fresh();
        self.ask_summary();
    }
}
