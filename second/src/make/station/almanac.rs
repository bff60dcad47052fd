//! What the book takes, and which entry it keeps.

use super::super::satellite::{day_after, on_day, Day};
use super::super::Input;
use super::SOME_START;
use crate::alter::{codes_out_of_range, with_bit_inverted, with_code, with_m};
use crate::known;
use crate::station::book::SLOTS;
use crate::string::{NavString, DATA};
use crate::words::kinds::{kind_of, ALMANAC_C, ALMANAC_SLOT};

pub(super) fn add_all(input: &mut Input) {
    input.superframe();
    input.every_slot_in_string_6();
    input.every_string_as_the_last();
    input.halves_apart();
    input.days();
    input.words_out_of_range();
    input.equal_days_with_other_bits();
    input.entries_that_differ_in_one_bit();
    input.last_string_of_frame_5();
}

/// String 5 and the pair of strings 6 and 7.
pub(super) type Three = [NavString; 3];

/// The same pair, shown on this day.
pub(super) fn dated([string_5, even, odd]: Three, day: Day) -> Three {
    [on_day(&string_5, day), even, odd]
}

pub(super) fn with_c([string_5, even, odd]: Three, c: u128) -> Three {
    [string_5, with_code(&even, &ALMANAC_C, c), odd]
}

impl Input {
    /// Five frames on one channel, then the same on another: all 24 slots.
    fn superframe(&mut self) {
        self.fresh();
        let (upload, satellite) = (self.upload(), self.satellite(9));
        for channel in [0, 1] {
            for number in 1..=5 {
                let start = SOME_START + 15 * number as u32;
                self.offer_in_frame(channel, start, &satellite.frame(&upload, number));
                self.ask_slots(0..=SLOTS + 1);
            }
            self.ask_channel(channel);
        }
    }

    /// Strings 14 and 15 are a pair in frames 1 to 4 alone.
    fn every_slot_in_string_6(&mut self) {
        for slot in 0..32 {
            self.fresh();
            let mut frame = self.frame(1);
            frame[5] = with_code(&frame[5], &ALMANAC_SLOT, slot);
            self.offer_in_frame(2, SOME_START, &frame[4..]);
            self.ask_slots([2, 3, 4, 5]);
            self.ask_slots([slot as usize]);
        }
    }

    fn every_string_as_the_last(&mut self) {
        for number in [1, 4, 5] {
            for last in 5..=15 {
                self.fresh();
                let mut others = self.frame(number)[4..].to_vec();
                let last = others.remove(last - 5);
                let others = self.shuffled(others);
                self.offer_in_frame(3, SOME_START, &others);
                self.ask_slots(5 * number - 4..=SLOTS.min(5 * number));
                self.offer_in_frame(3, SOME_START, &[last]);
                self.ask_slots(5 * number - 4..=SLOTS.min(5 * number));
            }
        }
    }

    /// Some of the three on one channel and the rest on another; and some in one
    /// frame, the rest in the next.
    fn halves_apart(&mut self) {
        let next_start = SOME_START + 15;
        for apart in 0..8 {
            self.fresh();
            self.offer_apart(apart, [(4, SOME_START), (5, SOME_START)]);
            self.offer_apart(apart, [(6, SOME_START), (6, next_start)]);
        }
    }

    /// Bit k of `apart` tells to which of the two places string k of the three goes.
    fn offer_apart(&mut self, apart: usize, places: [(u8, u32); 2]) {
        let three = self.three(7);
        for (index, string) in three.into_iter().enumerate() {
            let (channel, start) = places[apart >> index & 1];
            self.offer_in_frame(channel, start, &[string]);
        }
        self.ask_slots([7]);
    }

    pub(super) fn three(&mut self, slot: usize) -> Three {
        let upload = self.upload();
        let [even, odd] = upload.pairs[slot - 1];
        [upload.string_5, with_m(&even, 6), with_m(&odd, 7)]
    }

    /// Shows the three on a channel that holds nothing else.
    pub(super) fn show(&mut self, channel: u8, three: &Three) {
        self.reset(channel);
        let strings = self.as_some_pair(three);
        self.offer_in_frame(channel, SOME_START, &strings);
    }

    /// The three in some order, the halves as strings 2k and 2k + 1.
    pub(super) fn as_some_pair(&mut self, three: &Three) -> Vec<NavString> {
        let m = 6 + 2 * self.random.below(4);
        let [string_5, even, odd] = *three;
        let strings = [string_5, with_m(&even, m), with_m(&odd, m + 1)];
        self.shuffled(strings.to_vec())
    }

    /// Periods 0, 1, 31 and days 0, 1, 1461, 1462 with their neighbours: each into a
    /// book of its own, then one after another into the same book.
    fn days(&mut self) {
        let three = self.three(8);
        let mut days: Vec<Day> = Vec::new();
        for period in [0, 1, 2, 6, 7, 30, 31] {
            days.extend([0, 1, 2, 1460, 1461, 1462, 2047].map(|day| (period, day)));
        }
        for &day in &days {
            self.fresh();
            self.show_on_day(three, day);
        }
        self.fresh();
        for day in self.shuffled(days) {
            self.show_on_day(three, day);
        }
    }

    fn show_on_day(&mut self, three: Three, day: Day) {
        self.show(5, &dated(three, day));
        self.ask_slots([8]);
    }

    /// One word of the frame out of range; the pairs that it is no part of are shown.
    fn words_out_of_range(&mut self) {
        for m in 5..=15 {
            let kind = kind_of(m);
            for word in kind.words_with_range() {
                self.fresh();
                let mut frame = self.frame(3);
                let code = self.random.one_of(&codes_out_of_range(word));
                frame[m - 1] = with_code(&frame[m - 1], word, code);
                self.offer_in_frame(6, SOME_START, &frame);
                self.ask_slots(11..=15);
            }
        }
    }

    /// Several channels show one slot, on two days and with bits of their own.
    fn equal_days_with_other_bits(&mut self) {
        for _ in 0..12 {
            self.fresh();
            let day = self.some_day();
            for channel in 0..8 {
                let three = self.three(9);
                let day = match channel {
                    6 => day_after(day),
                    _ => day,
                };
                self.show(channel, &dated(three, day));
                self.ask_slots([9]);
            }
        }
    }

    /// Channels in turn show the same but for one bit. l, bit 9 of the odd string,
    /// makes no difference.
    fn entries_that_differ_in_one_bit(&mut self) {
        let every_third = (DATA.1..=DATA.0).step_by(3).chain([ALMANAC_C.top_bit()]);
        let bits = every_third.filter(|&bit| !ALMANAC_SLOT.holds(bit));
        for bit in bits {
            for half in [1, 2] {
                self.fresh();
                let three = self.three(10);
                let mut other = three;
                other[half] = with_bit_inverted(&other[half], bit);
                for (channel, three) in (0..).zip([three, other, three, other]) {
                    self.show(channel, &three);
                    self.ask_slots([10]);
                }
            }
        }
    }

    /// Its bits 77 to 73 read as a slot; it is none, whatever string 15 holds.
    fn last_string_of_frame_5(&mut self) {
        for slot in 1..=SLOTS {
            self.fresh();
            let mut frame = self.frame(5);
            frame[13] = with_code(&frame[13], &ALMANAC_SLOT, slot as u128);
            self.offer_in_frame(11, SOME_START, &frame);
            self.ask_slots([slot]);
        }
        self.offer_in_frame(12, SOME_START, &known::received_frame());
        self.ask_slots(1..=SLOTS);
    }
}
