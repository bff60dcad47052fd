//! Texts among the offers of channels that follow satellites.

use super::super::super::Input;
use super::{Place, PLACES};
use crate::station::card::ONE;

pub(super) fn add_all(input: &mut Input) {
    input.texts_over_a_sky(6, 600);
    input.texts_over_a_sky(2, 500);
}

impl Input {
    /// Before one offer in four something is asked of its channel, whatever it is.
    fn texts_over_a_sky(&mut self, channels: usize, count: usize) {
        self.fresh();
        for record in self.feed(channels).take(count) {
            let place = Place {
                card: ONE,
                channel: record.channel,
                ..PLACES[0]
            };
            match self.random.below(12) {
                0 => self.ask_navigation(place),
                1..=2 => self.ask_text(place),
                _ => (),
            }
            self.offer_record(&record);
        }
        for channel in 0..channels as u8 {
            self.ask_navigation(Place {
                channel,
                ..PLACES[0]
            });
        }
        self.ask_carriers(ONE, 1..=24);
    }
}
