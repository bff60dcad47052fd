//! Health by B, l and M of the record and C of the book: every mixture, and records that
//! give way to later ones.

use super::super::Input;
use super::{NEXT_START, SOME_START};
use crate::alter::{codes_out_of_range, with_bit_inverted, with_code};
use crate::request::HEALTH;
use crate::string::NavString;
use crate::words::kinds::{ALMANAC_C, B, L_OF_STRING_3, SATELLITE_TYPE, TK};

/// Two channels: the satellite is followed on one and the almanac comes from the other.
const CHANNEL: u8 = 5;
const OTHER_CHANNEL: u8 = 17;

/// What slots have in the book once it is filled: C = 1 in the first, C = 0 in the second.
const FIT: u128 = 3;
const NOT_FIT: u128 = 4;
const NOT_IN_BOOK: [u128; 3] = [0, 7, 25];

/// The bits of a record that its health depends on, each with the index of its string.
const BITS_OF_FLAGS: [(usize, usize); 4] = [(1, 80), (2, 65), (3, 10), (3, 9)];

pub(in super::super) fn add_all(input: &mut Input) {
    input.every_mixture_of_flags();
    input.book_of_two_slots();
    input.later_flags();
    input.later_flags_out_of_range();
    input.later_flags_of_some_satellite();
    input.flags_repaired_or_in_conflict();
}

/// What strings 1 to 4 say of the satellite that sends them. M is its type.
#[derive(Clone, Copy)]
struct Flags {
    b: u128,
    l: u128,
    satellite_type: u128,
    n: u128,
}

/// The fit slot with every l and every M.
fn flags_with(b: u128) -> impl Iterator<Item = Flags> {
    let every_l = move |satellite_type| {
        [0, 1].map(|l| Flags {
            b,
            l,
            satellite_type,
            n: FIT,
        })
    };
    (0..4).flat_map(every_l)
}

impl Input {
    /// The other words at random.
    fn four_strings(&mut self, flags: Flags) -> [NavString; 4] {
        let [first, second, third, fourth] = self.satellite(flags.n).strings;
        let fourth = with_code(&fourth, &SATELLITE_TYPE, flags.satellite_type);
        [
            first,
            with_code(&second, &B, flags.b),
            with_code(&third, &L_OF_STRING_3, flags.l),
            fourth,
        ]
    }

    fn ask_health(&mut self) {
        self.request(HEALTH, &[CHANNEL]);
    }

    /// Health after each string, in some order: unknown, or that of the former record,
    /// until all four have come.
    fn offer_and_ask(&mut self, start: u32, strings: &[NavString]) {
        for string in self.shuffled(strings.to_vec()) {
            self.offer_in_frame(CHANNEL, start, &[string]);
            self.ask_health();
        }
    }

    fn show_slot(&mut self, slot: u128, c: u128) {
        let mut three = self.three(slot as usize);
        three[1] = with_code(&three[1], &ALMANAC_C, c);
        self.show(OTHER_CHANNEL, &three);
    }

    /// B in all its codes. The entry comes before the record where B is even, and after
    /// it where B is odd.
    fn every_mixture_of_flags(&mut self) {
        for flags in (0..8).flat_map(flags_with) {
            for c in [0, 1] {
                self.fresh();
                let strings = self.four_strings(flags);
                if flags.b % 2 == 0 {
                    self.show_slot(flags.n, c);
                    self.offer_and_ask(SOME_START, &strings);
                } else {
                    self.offer_and_ask(SOME_START, &strings);
                    self.show_slot(flags.n, c);
                    self.ask_health();
                }
            }
        }
    }

    fn book_of_two_slots(&mut self) {
        self.fresh();
        self.show_slot(FIT, 1);
        self.show_slot(NOT_FIT, 0);
    }

    /// A record, and string by string one of the next frame.
    fn record_after_record(&mut self, first: Flags, next: &[NavString]) {
        let strings = self.four_strings(first);
        self.reset(CHANNEL);
        self.offer_and_ask(SOME_START, &strings);
        self.offer_and_ask(NEXT_START, next);
    }

    /// Every l and M after every other.
    fn later_flags(&mut self) {
        for first in flags_with(0) {
            for next in flags_with(0) {
                let next = self.four_strings(next);
                self.record_after_record(first, &next);
            }
        }
    }

    /// The next frame has all four strings and a wrong tk: the former record stays.
    fn later_flags_out_of_range(&mut self) {
        for first in flags_with(0) {
            let mut next = self.four_strings(Flags {
                l: 1 - first.l,
                ..first
            });
            let code = self.random.one_of(&codes_out_of_range(&TK));
            next[0] = with_code(&next[0], &TK, code);
            self.record_after_record(first, &next);
        }
    }

    /// Half of the satellites are in the book and fit; B in all its codes.
    fn later_flags_of_some_satellite(&mut self) {
        for _ in 0..60 {
            let [first, next] = [self.some_flags(), self.some_flags()];
            let next = self.four_strings(next);
            self.record_after_record(first, &next);
        }
    }

    fn some_flags(&mut self) -> Flags {
        let not_in_book = self.random.one_of(&NOT_IN_BOOK);
        Flags {
            b: self.random.below(8) as u128,
            l: self.random.below(2) as u128,
            satellite_type: self.random.below(4) as u128,
            n: self.random.one_of(&[FIT, FIT, NOT_FIT, not_in_book]),
        }
    }

    /// A flag's bit that is wrong on its way is repaired; one that is other than held,
    /// with good check bits, is in conflict. Health goes by what is held.
    fn flags_repaired_or_in_conflict(&mut self) {
        for flags in flags_with(0) {
            for (index, bit) in BITS_OF_FLAGS {
                let strings = self.four_strings(flags);
                let mut sent = strings;
                sent[index].flip(bit);
                self.reset(CHANNEL);
                self.offer_and_ask(SOME_START, &sent);
                let other = with_bit_inverted(&strings[index], bit);
                self.offer_and_ask(SOME_START, &[other]);
            }
        }
        self.ask_channel(CHANNEL);
    }
}
