//! The order of tests, and what a refusal leaves behind.

use second::known::{B_DAMAGED, FLIPS_TAKEN_FOR_BIT_85, FLIPS_THAT_DAMAGE};
use second::refusal::Refusal;
use second::relative::to_relative;
use second::station::card::ONE;
use second::station::Station;
use second::string::NavString;

use crate::strings::*;

fn held() -> Station {
    let mut station = Station::default();
    take_all(&mut station, 0, 1000, &[string_1(1)]);
    station
}

fn padded(string: &NavString) -> Vec<u8> {
    let mut bytes = to_relative(string).unwrap().to_bytes().to_vec();
    bytes[10] |= 1;
    bytes
}

/// Each offer has one wrong less than the one before; the damaged ones differ in
/// their cause.
#[test]
fn an_offer_is_refused_in_the_order_16_1_15_2_to_9() {
    let mut station = held();
    let no_number = with_m(&string_1(2), 0);
    let idle = no_number.flipped(&FLIPS_TAKEN_FOR_BIT_85);
    for (number, flips) in FLIPS_THAT_DAMAGE {
        let damaged = no_number.flipped(flips);
        for (card, channel, number) in [(3, 48, 16), (ONE, 48, 1), (ONE, 24, 15), (ONE, 0, 2)] {
            let answer = station.offer(card, channel, 0, &padded(&damaged));
            assert_eq!(answer.map_err(Refusal::number), Err(number));
        }
        let answer = offer(&mut station, 0, 0, &damaged);
        assert_eq!(answer.map_err(Refusal::number), Err(number));
    }
    let mut number_of = |epoch, string: &NavString| {
        let answer = offer(&mut station, 0, epoch, string);
        answer.map_or_else(|refusal| refusal.number(), |_| 0)
    };
    assert_eq!(number_of(0, &idle), 4);
    assert_eq!(number_of(0, &no_number), 5);
    assert_eq!(number_of(0, &string_3()), 6);
    assert_eq!(number_of(2, &string_3()), 7);
    assert_eq!(number_of(1001, &string_1(2)), 8);
    assert_eq!(number_of(1000, &string_1(2)), 9);
    assert_eq!(number_of(1015, &string_1(2)), 0);
}

/// Wherever it would belong: no frame held, the held frame, early, stale, off beat, a
/// new frame.
#[test]
fn damaged_strings_have_their_own_numbers_in_either_polarity() {
    for (number, symbols) in B_DAMAGED {
        let inverted = NavString::from_bytes(&symbols).unwrap().inverted();
        for symbols in [symbols, inverted.to_bytes()] {
            let answer = Station::default().offer(ONE, 0, 100, &symbols);
            assert_eq!(answer.map_err(Refusal::number), Err(number));
            for epoch in [1000, 0, 900, 1007, 1015, u32::MAX] {
                let answer = held().offer(ONE, 0, epoch, &symbols);
                assert_eq!(answer.map_err(Refusal::number), Err(number));
            }
        }
    }
}

/// Bit 85 is read as 0, so it cannot be flipped on the line.
#[test]
fn every_flip_on_the_line_is_taken_but_bit_8_and_every_two_are_32() {
    let string = string_1(1);
    let mut station = held();
    let mut number_of = |flips: &[usize]| {
        let answer = offer(&mut station, 0, 1000, &string.flipped(flips));
        answer.map_or_else(|refusal| refusal.number(), |_| 0)
    };
    for high in 1..85 {
        let expected = if high == 8 { 31 } else { 0 };
        assert_eq!(number_of(&[high]), expected, "bit {high}");
        for low in 1..high {
            assert_eq!(number_of(&[high, low]), 32, "bits {high}, {low}");
        }
    }
}

#[test]
fn wrong_lengths_are_shape() {
    for length in (0..30).filter(|&length| length != 11) {
        let answer = held().offer(ONE, 0, 1000, &vec![0; length]);
        assert_eq!(answer, Err(Refusal::Shape));
    }
}

#[test]
fn eleven_zero_bytes_have_no_number() {
    for symbols in [[0; 11], zero_symbols_inverted()] {
        assert_eq!(held().offer(ONE, 0, 1000, &symbols), Err(Refusal::Number));
    }
}

fn zero_symbols_inverted() -> [u8; 11] {
    NavString::zero().inverted().to_bytes()
}

#[test]
fn a_refused_string_changes_nothing_but_tallies() {
    let refused = [
        (1000, string_1(2)),
        (1000, string_1(1).flipped(&[8])),
        (1000, string_1(1).flipped(&[9, 10])),
        (1000, string_1(1).flipped(&[84, 8, 3])),
        (1007, string_1(1)),
        (900, string_1(1)),
        (1, string_3()),
        (1000, with_m(&string_1(1), 0)),
    ];
    for (epoch, string) in refused {
        let mut station = held();
        assert!(offer(&mut station, 0, epoch, &string).is_err());
        assert_eq!(station.tallies(ONE, 0).unwrap().refused, 1);
        // What stays is told by what is taken next.
        assert!(offer_in_frame(&mut station, 0, 1000, &string_1(1)).is_ok());
        assert!(offer_in_frame(&mut station, 0, 1000, &string_3()).is_ok());
        assert_eq!(
            offer(&mut station, 0, 1014, &string_1(1)),
            Err(Refusal::OffBeat)
        );
    }
}

#[test]
fn calls_on_a_wrong_channel_are_refused() {
    let mut station = held();
    let before = station.clone();
    for channel in [48, 49, 127, 255] {
        assert_eq!(station.reset(ONE, channel), Err(Refusal::Channel));
        assert_eq!(station.immediate(ONE, channel), Err(Refusal::Channel));
        assert_eq!(station.tallies(ONE, channel), Err(Refusal::Channel));
        assert_eq!(station.health(ONE, channel), Err(Refusal::Channel));
    }
    assert_eq!(station, before);
}

#[test]
fn a_wrong_slot_comes_before_nothing() {
    let station = Station::default();
    for slot in [0, 25, 26, 255] {
        assert_eq!(station.entry(ONE, slot), Err(Refusal::Slot));
    }
    for slot in 1..=24 {
        assert_eq!(station.entry(ONE, slot), Err(Refusal::Nothing));
    }
}
