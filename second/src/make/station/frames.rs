//! Which strings belong to the held frame, to a new one, or to none.

use super::super::Input;
use super::SOME_START;
use crate::alter::{minus_zero, with_bit_inverted, with_code, with_m};
use crate::known;
use crate::request::IMMEDIATE;
use crate::string::{NavString, DATA, IDLE_BIT};
use crate::words::kinds::kind_of;

pub(super) fn add_all(input: &mut Input) {
    input.papers_beat();
    input.starts_around_the_held_one();
    input.first_epochs();
    input.last_epochs();
    input.received_frame_in_three_orders();
    input.held_string_with_repairs();
    input.held_strings_with_minus_zeros();
    input.held_string_with_each_bit_inverted();
    input.relock_on_every_beat();
}

impl Input {
    /// A string of this number, every word in range.
    pub(super) fn string_numbered(&mut self, m: usize) -> NavString {
        let kind = kind_of(m);
        with_m(&self.random.string_of(kind), m)
    }

    /// "m 1 at epoch 100, then m 5 at 104: one frame. m 1 at 114: OFF BEAT; at 115:
    /// new frame. m 6 at 4: EARLY; at 5: start 0."
    fn papers_beat(&mut self) {
        self.fresh();
        for (epoch, m) in [(100, 1), (104, 5), (114, 1), (115, 1), (119, 5), (104, 5)] {
            let string = self.string_numbered(m);
            self.offer(0, epoch, &string);
        }
        for (epoch, m) in [(4, 6), (5, 6), (0, 1), (1, 1), (15, 1)] {
            let string = self.string_numbered(m);
            self.offer(1, epoch, &string);
        }
        self.ask_channel(0);
        self.ask_channel(1);
    }

    fn starts_around_the_held_one(&mut self) {
        for m in [1, 2, 8, 15] {
            for start in SOME_START - 20..=SOME_START + 20 {
                self.hold_something(2, SOME_START);
                let string = self.string_numbered(m);
                self.offer_in_frame(2, start, &[string]);
            }
        }
        self.ask_channel(2);
    }

    /// Resets the channel and lets it hold string 3 of a frame.
    fn hold_something(&mut self, channel: u8, start: u32) {
        self.reset(channel);
        let string = self.string_numbered(3);
        self.offer_in_frame(channel, start, &[string]);
    }

    /// Each m around its own first epoch, with and without a held frame.
    fn first_epochs(&mut self) {
        for m in 1..=15_usize {
            for epoch in [0, m.saturating_sub(2), m - 1, m, m + 14] {
                let string = self.string_numbered(m);
                self.reset(3);
                self.offer(3, epoch as u32, &string);
                self.offer(4, epoch as u32, &string);
            }
        }
        self.ask_channel(3);
        self.ask_channel(4);
    }

    /// Frames that start so late that 15 more would pass 2^32.
    fn last_epochs(&mut self) {
        for before_last in [0, 1, 2, 12, 13, 14, 15, 16, 28, 29, 30, 44] {
            for m in 1..=15 {
                self.reset(5);
                let held = self.string_numbered(1);
                self.offer(5, u32::MAX - before_last, &held);
                let string = self.string_numbered(m);
                self.offer(5, u32::MAX, &string);
                self.offer(5, m as u32, &string);
            }
        }
        self.ask_channel(5);
    }

    fn received_frame_in_three_orders(&mut self) {
        let forward = known::received_frame();
        let backward: Vec<NavString> = forward.iter().rev().copied().collect();
        let mixed = self.shuffled(forward.clone());
        for strings in [forward, backward, mixed] {
            self.fresh();
            for string in strings {
                self.offer_in_frame(7, SOME_START, &[string]);
                self.request(IMMEDIATE, &[7]);
            }
            self.ask_channel(7);
            self.ask_slots(16..=20);
        }
    }

    /// Already held, but for a flip of bit 8. Bit 85 is not on the line.
    fn held_string_with_repairs(&mut self) {
        let string = self.string_numbered(4);
        self.reset(8);
        self.offer_in_frame(8, SOME_START, &[string]);
        for bit in 1..IDLE_BIT {
            self.offer(8, SOME_START + 3, &string.flipped(&[bit]));
        }
        self.ask_channel(8);
    }

    /// Minus zeros where plain ones are held: the same meaning, other bits.
    fn held_strings_with_minus_zeros(&mut self) {
        for m in 1..=15 {
            let kind = kind_of(m);
            let mut string = self.string_numbered(m);
            for word in kind.signed_words() {
                string = with_code(&string, word, 0);
            }
            self.reset(9);
            self.offer_in_frame(9, SOME_START, &[string]);
            for word in kind.signed_words() {
                let other = with_code(&string, word, minus_zero(word));
                self.offer_in_frame(9, SOME_START, &[other]);
            }
        }
        self.ask_channel(9);
    }

    /// String 4 has the most reserved bits.
    fn held_string_with_each_bit_inverted(&mut self) {
        let string = self.string_numbered(4);
        self.reset(9);
        self.offer_in_frame(9, SOME_START, &[string]);
        for bit in DATA.1..=DATA.0 {
            self.offer_in_frame(9, SOME_START, &[with_bit_inverted(&string, bit)]);
        }
        self.ask_channel(9);
    }

    /// A string m at epoch e, then one string of each of two frames in a row, on
    /// each beat. The second starts by e + 29 and is taken.
    fn relock_on_every_beat(&mut self) {
        let e = SOME_START;
        for m in 1..=15 {
            for beat in 0..15 {
                let string = self.string_numbered(m);
                self.reset(10);
                self.offer(10, e, &string);
                for start in [e + beat, e + beat + 15] {
                    let m = 1 + self.random.below(15);
                    let string = self.string_numbered(m);
                    self.offer_in_frame(10, start, &[string]);
                }
            }
        }
        self.ask_channel(10);
    }
}
