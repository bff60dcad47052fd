//! Two entries of one day, for every bit as the first that differs: what weighs less is 0 in the
//! greater one and 1 in the lesser one.

use super::super::super::Input;
use super::super::almanac::{dated, Three};
use super::super::cards::Asker;
use super::{Row, DAYS};
use crate::alter::with_code;
use crate::hamming;
use crate::station::book::SLOTS;
use crate::words::kinds::{ALMANAC_SLOT, H};

/// Which of the three, and the bit.
type Place = (usize, usize);

const EVEN: usize = 1;
const ODD: usize = 2;

const CHANNEL: Row = (Asker::Unnamed, 11);

/// The places of a round stand in slots 1 to 24.
pub(super) fn add_all(input: &mut Input) {
    for places in places().chunks(SLOTS) {
        let books = input.books_that_differ_at(places);
        let [first, second] = books.map(|book| input.shown_in_turn(CHANNEL, &book));
        for histories in [[&first[..], &second], [&second, &first]] {
            input.sites(Input::tell_in_blocks, histories);
            input.join();
            input.ask_entries();
        }
    }
}

/// By their weight, the greatest first: all bits of an entry but those of its slot.
fn places() -> Vec<Place> {
    let bits_of_even = (9..=80).rev().filter(|&bit| !ALMANAC_SLOT.holds(bit));
    let of_even = bits_of_even.map(|bit| (EVEN, bit));
    let of_odd = (10..=80).rev().map(|bit| (ODD, bit));
    of_even.chain(of_odd).collect()
}

/// H has codes out of range: these are not, and differ first in this bit.
fn codes_of_h(bit: usize) -> Option<[u128; 2]> {
    match bit {
        14 => Some([0b01101, 0b11001]),
        13 => Some([0b00111, 0b01000]),
        12 => Some([0b00011, 0b00100]),
        11 => Some([0b00001, 0b00010]),
        10 => Some([0b00000, 0b00001]),
        _ => None,
    }
}

/// The lesser and the greater one.
fn differing_at(place: Place, three: Three) -> [Three; 2] {
    let with_bits = |is_greater: bool| {
        let mut three = three;
        let (index, bit) = place;
        let lower = places().into_iter().skip_while(|&other| other != place);
        for (index, bit) in lower {
            three[index].set(bit, !is_greater);
        }
        three[index].set(bit, is_greater);
        three.map(|string| hamming::encode(&string))
    };
    let [lesser, greater] = [false, true].map(with_bits);
    match (place, codes_of_h(place.1)) {
        ((ODD, _), Some(codes)) => [with_h(lesser, codes[0]), with_h(greater, codes[1])],
        _ => [lesser, greater],
    }
}

fn with_h([string_5, even, odd]: Three, code: u128) -> Three {
    [string_5, even, with_code(&odd, &H, code)]
}

impl Input {
    /// Either site has the greater entry of a slot.
    fn books_that_differ_at(&mut self, places: &[Place]) -> [Vec<Three>; 2] {
        let mut books = [Vec::new(), Vec::new()];
        for (slot, &place) in (1..).zip(places) {
            let three = dated(self.three(slot), DAYS[0]);
            let site = self.random.below(2);
            let [lesser, greater] = differing_at(place, three);
            books[site].push(greater);
            books[1 - site].push(lesser);
        }
        books
    }
}
