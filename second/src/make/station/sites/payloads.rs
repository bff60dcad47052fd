//! Requests for the other station and for a join with payloads, and 32 higher: no card makes
//! them.

use super::super::super::Input;
use super::super::SOME_START;
use crate::request::card::FOR_ANY_CARD;
use crate::request::{JOIN, OTHER_STATION};

/// Each station has a book of its own, so that what is done by mistake is seen.
pub(super) fn add_all(input: &mut Input) {
    input.two_books_of_a_frame();
    for op in [OTHER_STATION, JOIN] {
        for payload in [&[0][..], &[1], &[2], &[op], &[0, 0], &[2, 24], &[255; 16]] {
            input.request(op, payload);
            input.ask_summary();
        }
        input.request(op, &[0; 256]);
        input.request(op, &[0; 4096]);
        for payload in [&[][..], &[1], &[2], &[1, 0]] {
            input.request(op + FOR_ANY_CARD, payload);
        }
        input.ask_summary();
    }
    input.fresh_one_and_then_the_other();
}

impl Input {
    /// Of frames 1 and 5: five entries and four.
    fn two_books_of_a_frame(&mut self) {
        for number in [5, 1] {
            let frame = self.frame(number);
            self.other_station();
            self.fresh();
            self.offer_in_frame(0, SOME_START, &frame);
            self.ask_summary();
        }
    }

    /// Only the one in use is emptied.
    fn fresh_one_and_then_the_other(&mut self) {
        for _ in 0..2 {
            self.fresh();
            for _ in 0..2 {
                self.ask_summary();
                self.ask_channel(0);
                self.other_station();
            }
            self.other_station();
        }
    }
}
