//! Slots that both sites have, or one of them alone: each way in which two entries differ.

use super::super::super::Input;
use super::super::almanac::{dated, with_c, Three};
use super::super::cards::Asker;
use super::{Row, CARD_TWO, DAYS};
use crate::alter::{with_bit_inverted, with_code, with_number};
use crate::station::book::SLOTS;
use crate::words::kinds::H;

/// What the two sites have of a slot. Where it tells what differs, all else is the same.
#[derive(Clone, Copy)]
enum Clash {
    Nothing,
    OneAlone,
    Same,
    /// Of the odd string, and no part of an entry.
    L,
    LowestEvenBit,
    LowestOddBit,
    /// The lowest bit of the even half, and the highest of the odd half the other way.
    EvenAgainstOdd,
    /// And MA the other way.
    C,
    /// Tau A is 0 in both.
    MinusZero,
    /// And C the other way: of the next day in a period, of the first of the next period, and of
    /// the last day that there is.
    NextDay,
    NextPeriod,
    LastDay,
}

/// Twice as many are the slots of a book.
const CLASHES: [Clash; 12] = [
    Clash::Nothing,
    Clash::OneAlone,
    Clash::Same,
    Clash::L,
    Clash::LowestEvenBit,
    Clash::LowestOddBit,
    Clash::EvenAgainstOdd,
    Clash::C,
    Clash::MinusZero,
    Clash::NextDay,
    Clash::NextPeriod,
    Clash::LastDay,
];

const MA: (usize, usize) = (79, 78);
const TAU_A: (usize, usize) = (72, 63);
const SIGN_OF_TAU_A: u128 = 1 << 9;

/// The channels of the two sites.
const ROUNDS: [[Row; 2]; 2] = [
    [(Asker::Unnamed, 0), (Asker::Unnamed, 0)],
    [(CARD_TWO, 47), (Asker::Unnamed, 23)],
];

pub(super) fn add_all(input: &mut Input) {
    for rows in ROUNDS {
        let [first, second] = input.clashing_books();
        let first = input.shown_in_turn(rows[0], &first);
        let second = input.shown_in_turn(rows[1], &second);
        input.joined_both_ways([&first, &second], &rows);
    }
}

/// The lesser entry and the greater one; none where a site has no entry.
fn lesser_and_greater(clash: Clash, three: Three) -> [Option<Three>; 2] {
    let [string_5, even, odd] = three;
    let of_even = |bits, number| [string_5, with_number(&even, bits, number), odd];
    let of_h = |code| [string_5, even, with_code(&odd, &H, code)];
    let of_c = |ma, c| with_c(of_even(MA, ma), c);
    let on = |day, c| with_c(dated(three, day), c);
    let [lesser, greater] = match clash {
        Clash::Nothing => return [None, None],
        Clash::OneAlone => return [None, Some(three)],
        Clash::Same => [three, three],
        Clash::L => [three, [string_5, even, with_bit_inverted(&odd, 9)]],
        Clash::LowestEvenBit => [of_even((9, 9), 0), of_even((9, 9), 1)],
        Clash::LowestOddBit => [of_h(8), of_h(9)],
        Clash::EvenAgainstOdd => even_against_odd(three),
        Clash::C => [of_c(0b11, 0), of_c(0, 1)],
        Clash::MinusZero => [of_even(TAU_A, 0), of_even(TAU_A, SIGN_OF_TAU_A)],
        Clash::NextDay => [on(DAYS[0], 1), on(DAYS[1], 0)],
        Clash::NextPeriod => [on(DAYS[1], 1), on(DAYS[2], 0)],
        Clash::LastDay => [on((1, 1), 1), on((31, 1461), 0)],
    };
    [Some(lesser), Some(greater)]
}

fn even_against_odd([string_5, even, odd]: Three) -> [Three; 2] {
    [0, 1].map(|bit| {
        let even = with_number(&even, (9, 9), bit);
        [string_5, even, with_number(&odd, (80, 80), 1 - bit)]
    })
}

impl Input {
    /// Each clash twice, on any slots: the one site has the greater entry, and the other.
    fn clashing_books(&mut self) -> [Vec<Three>; 2] {
        let mut books = [Vec::new(), Vec::new()];
        let slots = self.shuffled((1..=SLOTS).collect());
        let clashes = CLASHES.iter().flat_map(|&clash| [(clash, 0), (clash, 1)]);
        for (slot, (clash, site)) in slots.into_iter().zip(clashes) {
            let three = dated(self.three(slot), DAYS[1]);
            let [lesser, greater] = lesser_and_greater(clash, three);
            books[site].extend(greater);
            books[1 - site].extend(lesser);
        }
        books
    }
}
