//! Requests on strings alone: relative code and the check.

use super::{Input, RIGHT_ROOM, WRONG_LENGTHS, WRONG_ROOMS};
use crate::known;
use crate::relative;
use crate::request::{CHECK, FROM_RELATIVE, TO_RELATIVE};
use crate::string::{NavString, BITS, BYTES, IDLE_BIT, PADDING};

const OPS: [u8; 3] = [FROM_RELATIVE, TO_RELATIVE, CHECK];

pub(super) fn add_all(input: &mut Input) {
    input.known_strings();
    input.received_frame();
    input.clean_strings();
    input.idle_bit_set();
    input.single_flips();
    input.random_flips();
    input.odd_string_with_sums_zero();
    input.repairs_to_bit_85();
    input.random_strings();
    input.wrong_padding();
    input.wrong_lengths();
    input.wrong_rooms();
    input.several_wrongs_at_once();
    input.empty_payloads();
}

impl Input {
    fn call(&mut self, op: u8, room: u8, string: &[u8]) {
        let payload = [&[room], string].concat();
        self.request(op, &payload);
    }

    fn every_call(&mut self, room: u8, string: &[u8]) {
        for op in OPS {
            self.call(op, room, string);
        }
    }

    fn check(&mut self, string: &NavString) {
        self.call(CHECK, RIGHT_ROOM, &string.to_bytes());
    }

    /// The check of a plain string, and its way to relative form and back, in
    /// both polarities.
    fn check_and_round_trip(&mut self, string: &NavString) {
        self.check(string);
        self.call(TO_RELATIVE, RIGHT_ROOM, &string.to_bytes());
        let symbols = relative::to_relative(string).expect("bit 85 is 0");
        self.call(FROM_RELATIVE, RIGHT_ROOM, &symbols.to_bytes());
        self.call(FROM_RELATIVE, RIGHT_ROOM, &symbols.inverted().to_bytes());
    }

    fn known_strings(&mut self) {
        for string in [known::A, known::B, known::B_INVERTED, [0; BYTES]] {
            self.every_call(RIGHT_ROOM, &string);
        }
        for flips in known::FLIPS_OF_A {
            self.every_call(RIGHT_ROOM, &known::a().flipped(flips).to_bytes());
        }
        let taken_for_85 = known::a().flipped(&known::FLIPS_TAKEN_FOR_BIT_85);
        self.every_call(RIGHT_ROOM, &taken_for_85.to_bytes());
    }

    fn received_frame(&mut self) {
        for string in known::received_frame() {
            self.check_and_round_trip(&string);
        }
    }

    fn clean_strings(&mut self) {
        for _ in 0..180 {
            let string = self.random.encoded_string(false);
            self.check_and_round_trip(&string);
        }
    }

    /// Clean by the sums, but IDLE for the check and for writing.
    fn idle_bit_set(&mut self) {
        for _ in 0..80 {
            let string = self.random.encoded_string(true);
            self.every_call(RIGHT_ROOM, &string.to_bytes());
        }
    }

    /// Each of the 85 flips of A, of strings with bit 85 at 0 and at 1.
    fn single_flips(&mut self) {
        let mut strings = vec![known::a()];
        for idle in [false, false, false, false, true, true, true] {
            strings.push(self.random.encoded_string(idle));
        }
        for string in strings {
            for number in (1..=BITS).rev() {
                self.check(&string.flipped(&[number]));
            }
        }
    }

    /// Pairs, triples and more, in turn; a quarter of the strings have bit 85 at 1.
    fn random_flips(&mut self) {
        for round in 0..1200 {
            let string = self.random.encoded_string(round % 4 == 3);
            let more = 4 + self.random.below(9);
            let count = [2, 3, more][round % 3];
            let flips = self.random.bit_numbers(count);
            self.check(&string.flipped(&flips));
        }
    }

    /// S = 0 with C = 1: bit 8 alone, and three flips whose positions (3, 2, 1)
    /// add up to 0.
    fn odd_string_with_sums_zero(&mut self) {
        for _ in 0..30 {
            let string = self.random.encoded_string(false);
            self.check(&string.flipped(&[8]));
            self.check(&string.flipped(&[9, 2, 1]));
        }
    }

    /// The check names bit 85 of each: right for the first, IDLE for the others.
    fn repairs_to_bit_85(&mut self) {
        for _ in 0..60 {
            let idle_zero = self.random.encoded_string(false);
            self.check(&idle_zero.flipped(&[IDLE_BIT]));
            self.check(&idle_zero.flipped(&known::FLIPS_TAKEN_FOR_BIT_85));
            let idle_one = self.random.encoded_string(true);
            self.check(&idle_one.flipped(&[IDLE_BIT]));
        }
    }

    /// Random bits with padding 0, and eleven bytes wholly at random.
    fn random_strings(&mut self) {
        for _ in 0..240 {
            let string = self.random.string();
            self.every_call(RIGHT_ROOM, &string.to_bytes());
        }
        for _ in 0..30 {
            let bytes = self.random.bytes(BYTES);
            self.every_call(RIGHT_ROOM, &bytes);
        }
    }

    /// Each padding but 0, on A and on strings that are clean, with bit 85 set,
    /// with one flip and with two.
    fn wrong_padding(&mut self) {
        for padding in 1..=PADDING {
            let clean = self.random.encoded_string(false);
            let one_flip = clean.flipped(&self.random.bit_numbers(1));
            let two_flips = clean.flipped(&self.random.bit_numbers(2));
            let idle_one = self.random.encoded_string(true);
            for string in [known::a(), clean, one_flip, two_flips, idle_one] {
                let mut bytes = string.to_bytes();
                bytes[BYTES - 1] |= padding;
                self.every_call(RIGHT_ROOM, &bytes);
            }
        }
    }

    /// Random bytes, and A with its end cut off or zeros after it.
    fn wrong_lengths(&mut self) {
        for length in WRONG_LENGTHS {
            let bytes = self.random.bytes(length);
            self.every_call(RIGHT_ROOM, &bytes);
            let mut a = known::A.to_vec();
            a.resize(length, 0);
            self.call(CHECK, RIGHT_ROOM, &a);
        }
    }

    fn wrong_rooms(&mut self) {
        for room in WRONG_ROOMS {
            let clean = self.random.encoded_string(false);
            let damaged = clean.flipped(&self.random.bit_numbers(2));
            for string in [known::a(), clean, damaged] {
                self.every_call(room, &string.to_bytes());
            }
            self.every_call(room, &[]);
        }
    }

    /// Every mixture of wrong room, wrong shape, wrong bits and bit 85, to show
    /// which refusal comes first.
    fn several_wrongs_at_once(&mut self) {
        for round in 0..3 {
            for flips in 0..=2 {
                for idle in [false, true] {
                    let string = self.random.encoded_string(idle);
                    let numbers = self.random.bit_numbers(flips);
                    self.every_room_and_shape(round, &string.flipped(&numbers));
                }
            }
        }
    }

    fn every_room_and_shape(&mut self, round: usize, string: &NavString) {
        let right = string.to_bytes();
        let mut padded = right;
        padded[BYTES - 1] |= 1 << round;
        let long = [&right[..], &[0]].concat();
        for room in [RIGHT_ROOM, WRONG_ROOMS[round]] {
            for bytes in [&right[..], &padded, &long, &right[1..]] {
                self.every_call(room, bytes);
            }
        }
    }

    fn empty_payloads(&mut self) {
        for op in OPS {
            self.request(op, &[]);
        }
    }
}
