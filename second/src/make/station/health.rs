//! Records and entries of one satellite, in all mixtures.

use super::super::Input;
use super::SOME_START;
use crate::alter::with_code;
use crate::request::HEALTH;
use crate::words::kinds::{ALMANAC_C, B};

pub(super) fn add_all(input: &mut Input) {
    input.every_b_and_c();
    input.every_n();
    input.health_over_days();
}

impl Input {
    fn every_b_and_c(&mut self) {
        for b in 0..8 {
            for c in [0, 1] {
                self.fresh();
                self.record_and_almanac(b, c, 1 + b);
            }
        }
    }

    /// The record's n in every code; 0 and 25 to 31 have no entry.
    fn every_n(&mut self) {
        for n in 0..32 {
            self.fresh();
            self.record_and_almanac(0, 1, n);
        }
    }

    /// A record on one channel, a frame with its satellite's almanac on another, and
    /// health before and after each.
    fn record_and_almanac(&mut self, b: u128, c: u128, n: u128) {
        let mut satellite = self.satellite(n);
        satellite.strings[1] = with_code(&satellite.strings[1], &B, b);
        let mut upload = self.upload();
        for pair in &mut upload.pairs {
            pair[0] = with_code(&pair[0], &ALMANAC_C, c);
        }
        let number = 1 + (n as usize).saturating_sub(1) / 5 % 5;
        let frame = satellite.frame(&upload, number);
        self.request(HEALTH, &[0]);
        self.offer_in_frame(0, SOME_START, &frame[..4]);
        self.request(HEALTH, &[0]);
        self.offer_in_frame(1, SOME_START, &frame[4..]);
        self.request(HEALTH, &[0]);
        self.request(HEALTH, &[1]);
    }

    /// The almanac of three satellites changes while their records stay.
    fn health_over_days(&mut self) {
        self.fresh();
        for (channel, n) in [(0, 1), (1, 2), (2, 3)] {
            let satellite = self.satellite(n);
            self.offer_in_frame(channel, SOME_START, &satellite.strings);
        }
        for _ in 0..40 {
            let frame = self.frame(1);
            self.reset(3);
            self.offer_in_frame(3, SOME_START, &frame[4..]);
            for channel in 0..4 {
                self.request(HEALTH, &[channel]);
            }
        }
    }
}
