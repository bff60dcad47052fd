//! How the record, string 5 and the entry come, go and stay.

use super::super::super::Input;
use super::super::cards::Asker;
use super::super::SOME_START;
use super::{Place, Told, ALMANAC_CHANNEL, FRAME, PLACES, SOME_TIME};
use crate::alter::{codes_out_of_range, with_bit_inverted, with_code, with_m};
use crate::request::RESET;
use crate::string::NavString;
use crate::words::kinds::{ALMANAC_DAY, TB, TK};

pub(super) fn add_all(input: &mut Input) {
    input.each_of_seven_strings_in_some_order();
    input.entry_from_elsewhere();
    input.string_5_of_the_next_frame();
    input.next_record_out_of_range();
    input.almanac_day_out_of_range();
    input.string_5_refused_and_held();
    input.starts_at_their_ends();
    input.satellites_without_a_slot();
    input.resets_between();
}

impl Input {
    fn hear_and_ask_each(&mut self, place: Place, strings: &[NavString]) {
        for string in strings {
            self.hear(place, &[*string]);
            self.ask_navigation(place);
        }
    }

    fn reset_by(&mut self, place: Place) {
        self.ask(Asker::Card(place.card), RESET, &[place.channel]);
    }

    /// Strings 1 to 5 and the pair of the satellite itself, which all come in one frame.
    fn each_of_seven_strings_in_some_order(&mut self) {
        for place in PLACES {
            for _ in 0..8 {
                self.fresh();
                let [_, even, odd] = self.three(SOME_TIME.n as usize);
                let mut strings = self.told(SOME_TIME);
                strings.extend([even, odd]);
                let strings = self.shuffled(strings);
                self.hear_and_ask_each(place, &strings);
                self.ask_carriers(place.card, 6..=8);
            }
        }
    }

    /// From the same card and from the other one.
    fn entry_from_elsewhere(&mut self) {
        for place in PLACES {
            for other in PLACES {
                let other = Place {
                    channel: other.channel + 1,
                    ..other
                };
                self.entries_before_and_after_a_record(place, other);
            }
        }
    }

    /// Of the same satellite and of another one; an entry that another one replaces.
    fn entries_before_and_after_a_record(&mut self, place: Place, other: Place) {
        for slots in [[7, 8], [8, 7], [7, 7]] {
            self.fresh();
            let strings = self.told(SOME_TIME);
            let [first, second] = slots.map(|slot| self.three(slot));
            self.hear(other, &first);
            self.ask_navigation(place);
            self.hear(place, &strings);
            self.ask_navigation(place);
            self.hear(other.next(), &second);
            self.ask_navigation(place);
            self.ask_carriers(place.card, [7, 8]);
        }
    }

    /// It comes before the record of its frame, and the former record has none then.
    fn string_5_of_the_next_frame(&mut self) {
        self.fresh_with_some_book();
        for place in PLACES {
            for last in 1..=5 {
                self.reset_by(place);
                let strings = self.told(SOME_TIME);
                self.hear(place, &strings);
                let mut next = self.told(Told {
                    tb: SOME_TIME.tb + 1,
                    ..SOME_TIME
                });
                next.rotate_left(last);
                self.hear_and_ask_each(place.next(), &next);
            }
        }
    }

    /// The former record stays, and the start that it has; then a good record follows.
    fn next_record_out_of_range(&mut self) {
        self.fresh_with_some_book();
        for place in PLACES {
            for (index, word) in [(0, &TK), (1, &TB)] {
                let code = self.random.one_of(&codes_out_of_range(word));
                let mut wrong = self.told(SOME_TIME);
                wrong[index] = with_code(&wrong[index], word, code);
                let (first, last) = (self.told(SOME_TIME), self.told(SOME_TIME));
                self.reset_by(place);
                self.hear_and_ask_each(place, &wrong);
                self.hear_and_ask_each(place.next(), &first);
                self.hear_and_ask_each(place.next().next(), &wrong);
                self.hear_and_ask_each(place.next().next().next(), &last);
            }
        }
    }

    /// It shows no entry, and counts all the same.
    fn almanac_day_out_of_range(&mut self) {
        self.fresh_with_some_book();
        let mut place = PLACES[1];
        for code in [0, 1, 1461, 1462, 2047] {
            let mut strings = self.told(SOME_TIME);
            strings[4] = with_code(&strings[4], &ALMANAC_DAY, code);
            place = place.next();
            self.hear(place, &strings);
            self.ask_navigation(place);
        }
    }

    /// With two flips, with another bit than held, of another frame, and held already.
    fn string_5_refused_and_held(&mut self) {
        self.fresh_with_some_book();
        for place in PLACES {
            let place = place.next();
            let strings = self.told(SOME_TIME);
            let string_5 = strings[4];
            self.hear(place, &strings[..4]);
            self.hear_and_ask_each(place, &[string_5.flipped(&[30, 50])]);
            let stale = Place {
                start: place.start - FRAME,
                ..place
            };
            self.hear_and_ask_each(stale, &[string_5]);
            self.hear_and_ask_each(place, &[with_m(&string_5, 0)]);
            self.hear_and_ask_each(place, &[string_5.flipped(&[40]), string_5]);
            self.hear_and_ask_each(place, &[with_bit_inverted(&string_5, 32)]);
        }
    }

    /// At 0, where a row without a frame has its start too, and up to the last.
    fn starts_at_their_ends(&mut self) {
        self.fresh_with_some_book();
        let last = u32::MAX - (FRAME - 1);
        for place in PLACES {
            for start in [0, 1, FRAME, SOME_START, 1 << 31, last - FRAME, last] {
                let place = Place { start, ..place };
                let strings = self.told(SOME_TIME);
                self.hear_and_ask_each(place, &strings[3..]);
                self.hear_and_ask_each(place, &strings[..3]);
            }
        }
    }

    /// n 0 and above 24, and those at the ends of the slots.
    fn satellites_without_a_slot(&mut self) {
        self.fresh_with_some_book();
        for mut place in PLACES {
            for n in 0..32 {
                let strings = self.told(Told { n, ..SOME_TIME });
                place = place.next();
                self.hear(place, &strings);
                self.ask_navigation(place);
            }
        }
        self.ask_carriers(1, 0..=26);
        self.ask_carriers(2, 0..=26);
    }

    /// Of the channel, of another one, and of the one that the almanac came from.
    fn resets_between(&mut self) {
        self.fresh_with_some_book();
        for place in PLACES {
            let strings = self.told(SOME_TIME);
            self.hear(place, &strings);
            self.reset(ALMANAC_CHANNEL);
            self.reset(place.channel + 1);
            self.ask_navigation(place);
            self.reset_by(place);
            self.ask_navigation(place);
            self.hear_and_ask_each(place, &strings);
        }
        self.fresh();
        self.ask_navigation(PLACES[0]);
        self.ask_carriers(1, [7]);
    }
}
