//! Each cause of damage with every trouble that is looked for before it or after it:
//! the answer shows which comes first. Only check bits are wrong, so that the other
//! trouble stays as it is.

use super::{Input, RIGHT_ROOM, WRONG_ROOMS};
use crate::alter::{codes_out_of_range, with_bit_inverted, with_code, with_m};
use crate::known;
use crate::relative;
use crate::request::{self, CHECK, READ};
use crate::string::{NavString, BYTES, IDLE_BIT};
use crate::words::kinds::{ALMANAC_SLOT, EVEN};

/// String 3 of the frame at 1000 is held on this channel.
const CHANNEL: u8 = 0;
const OTHERS_CHANNEL: u8 = 24;
const EPOCH: u32 = 1002;

/// Early, stale, off beat, a new frame.
const OTHER_EPOCHS: [u32; 4] = [1, 900, EPOCH + 5, EPOCH + 15];

pub(super) fn add_all(input: &mut Input) {
    for (index, (_, flips)) in known::FLIPS_OF_CHECK_BITS.into_iter().enumerate() {
        input.check_damaged(flips, WRONG_ROOMS[index]);
        input.read_damaged(flips);
        input.offer_damaged(flips);
    }
}

impl Input {
    /// With a wrong room, in a wrong shape, with bit 85 set; and every mixture.
    fn check_damaged(&mut self, flips: &[usize], wrong_room: u8) {
        for idle in [false, true] {
            let string = self.random.encoded_string(idle).flipped(flips);
            for room in [RIGHT_ROOM, wrong_room] {
                for bytes in in_every_shape(&string.to_bytes()) {
                    self.request(CHECK, &[&[room], &bytes[..]].concat());
                }
            }
        }
    }

    /// In a wrong shape; with bit 85 set, m 0, m of another kind, nA out of range.
    fn read_damaged(&mut self, flips: &[usize]) {
        let kind = request::number_of(&EVEN);
        let right = self.random.string_of(&EVEN);
        let wrong_slot = self.random.one_of(&codes_out_of_range(&ALMANAC_SLOT));
        let strings = [
            right,
            with_bit_inverted(&right, IDLE_BIT),
            with_m(&right, 0),
            with_m(&right, 7),
            with_code(&right, &ALMANAC_SLOT, wrong_slot),
        ];
        for string in strings {
            for bytes in in_every_shape(&string.flipped(flips).to_bytes()) {
                self.request(READ, &[&[kind], &bytes[..]].concat());
            }
        }
    }

    /// On the other card's channel, in a wrong shape; m 0, early, stale, off beat, in conflict,
    /// held already or of a new frame. Then the held string as it was.
    fn offer_damaged(&mut self, flips: &[usize]) {
        let held = with_m(&self.random.encoded_string(false), 3);
        let other = with_m(&self.random.encoded_string(false), 3);
        self.fresh();
        self.offer(CHANNEL, EPOCH, &held);
        self.offer_misshapen(EPOCH, &held.flipped(flips));
        for string in [with_m(&other, 0), other] {
            self.offer_in_both_polarities(EPOCH, &string.flipped(flips));
        }
        for epoch in OTHER_EPOCHS {
            self.offer_in_both_polarities(epoch, &other.flipped(flips));
        }
        self.ask_channel(CHANNEL);
        self.offer(CHANNEL, EPOCH, &held);
    }

    fn offer_misshapen(&mut self, epoch: u32, string: &NavString) {
        for symbols in in_both_polarities(string) {
            for bytes in in_every_shape(&symbols) {
                for channel in [CHANNEL, OTHERS_CHANNEL] {
                    self.offer_symbols(channel, epoch, &bytes);
                }
            }
        }
    }

    fn offer_in_both_polarities(&mut self, epoch: u32, string: &NavString) {
        for symbols in in_both_polarities(string) {
            self.offer_symbols(CHANNEL, epoch, &symbols);
        }
    }
}

fn in_both_polarities(string: &NavString) -> [[u8; BYTES]; 2] {
    let symbols = relative::to_relative(string).expect("bit 85 is 0");
    [symbols, symbols.inverted()].map(|symbols| symbols.to_bytes())
}

/// As it is, with padding, and with a byte too many.
fn in_every_shape(bytes: &[u8; BYTES]) -> [Vec<u8>; 3] {
    let mut padded = bytes.to_vec();
    padded[BYTES - 1] |= 1;
    [bytes.to_vec(), padded, [&bytes[..], &[0]].concat()]
}
