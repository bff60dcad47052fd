//! Which strings belong to the held frame, to a new one, or to none.

use second::hamming::Verdict;
use second::refusal::Refusal;
use second::relative::to_relative;
use second::station::card::ONE;
use second::station::row::News;
use second::station::Station;
use second::words::kinds::STRING_4;

use crate::strings::*;

#[test]
fn the_papers_beat() {
    let mut station = Station::default();
    let m_1_at = |station: &mut Station, epoch| offer(station, 0, epoch, &string_1(0));
    assert!(m_1_at(&mut station, 100).is_ok());
    assert!(offer(&mut station, 0, 104, &string_5(6, 1)).is_ok());
    assert_eq!(m_1_at(&mut station, 114), Err(Refusal::OffBeat));
    assert!(m_1_at(&mut station, 115).is_ok());
    // The new frame has another string 5.
    assert!(offer(&mut station, 0, 119, &string_5(6, 2)).is_ok());
}

#[test]
fn m_6_at_4_is_early_and_at_5_starts_at_0() {
    let mut station = Station::default();
    let string_6 = even(6, 1, 1, 0);
    assert_eq!(offer(&mut station, 0, 4, &string_6), Err(Refusal::Early));
    assert!(offer(&mut station, 0, 5, &string_6).is_ok());
    assert_eq!(
        offer_in_frame(&mut station, 0, 0, &string_1(0)),
        Ok(News::Kept)
    );
    assert_eq!(
        offer_in_frame(&mut station, 0, 1, &string_1(0)),
        Err(Refusal::OffBeat)
    );
}

#[test]
fn each_m_is_early_up_to_its_own_epoch() {
    for m in 1..=15 {
        let string = with_m(&string_3(), m);
        for epoch in 0..20 {
            let answer = offer(&mut Station::default(), 0, epoch, &string);
            assert_eq!(
                answer.is_err(),
                (epoch as usize) < m - 1,
                "m {m} at {epoch}"
            );
        }
    }
}

#[test]
fn early_does_not_look_at_the_held_frame() {
    let mut station = Station::default();
    take_all(&mut station, 0, 1000, &[string_1(0)]);
    assert_eq!(
        offer(&mut station, 0, 4, &even(6, 1, 1, 0)),
        Err(Refusal::Early)
    );
}

#[test]
fn starts_before_are_stale_1_to_14_after_off_beat_then_new() {
    for start in 960..1060 {
        let mut station = Station::default();
        take_all(&mut station, 0, 1000, &[string_1(0)]);
        let expected = match start {
            ..1000 => Err(Refusal::Stale),
            1000 => Ok(News::Kept),
            1001..=1014 => Err(Refusal::OffBeat),
            _ => Ok(News::Kept),
        };
        assert_eq!(
            offer_in_frame(&mut station, 0, start, &string_3()),
            expected
        );
    }
}

#[test]
fn starts_near_the_last_epoch_do_not_wrap() {
    let last = u32::MAX;
    for held in [last - 30, last - 15, last - 14, last - 1, last] {
        let mut station = Station::default();
        take_all(&mut station, 0, held, &[string_1(0)]);
        let expected = match last - held {
            0 => Ok(News::AlreadyHeld),
            1..=14 => Err(Refusal::OffBeat),
            _ => Ok(News::Kept),
        };
        assert_eq!(
            offer_in_frame(&mut station, 0, last, &string_1(0)),
            expected
        );
        assert_eq!(offer(&mut station, 0, 0, &string_1(0)), Err(Refusal::Stale));
    }
}

#[test]
fn late_strings_come_in_any_order() {
    let mut station = Station::default();
    let mut strings = five_pairs(1);
    strings.push(string_5(6, 1));
    strings.reverse();
    take_all(&mut station, 0, 1000, &strings);
}

#[test]
fn a_string_held_is_held_already_in_either_polarity_and_with_a_repair() {
    let mut station = Station::default();
    let string = string_1(7);
    take_all(&mut station, 0, 1000, &[string]);
    let inverted = to_relative(&string).unwrap().inverted();
    let taken = station.offer(ONE, 0, 1000, &inverted.to_bytes()).unwrap();
    assert_eq!(
        (taken.m, taken.verdict, taken.news),
        (1, Verdict::Clean, News::AlreadyHeld)
    );
    let taken = offer(&mut station, 0, 1000, &string.flipped(&[40])).unwrap();
    let repaired = Verdict::Repaired { bit: 40 };
    assert_eq!((taken.verdict, taken.news), (repaired, News::AlreadyHeld));
}

#[test]
fn every_data_bit_makes_a_conflict() {
    let mut station = Station::default();
    take_all(&mut station, 0, 1000, &[string_1(7)]);
    for bit in 9..=80 {
        let other = with_bit_inverted(&string_1(7), bit);
        let answer = offer_in_frame(&mut station, 0, 1000, &other);
        assert_eq!(answer, Err(Refusal::Conflict), "bit {bit}");
    }
}

/// The reader takes them for the same; the station compares bits.
#[test]
fn minus_zero_and_reserved_bits_make_a_conflict() {
    let mut station = Station::default();
    take_all(&mut station, 0, 1000, &[string_4(1)]);
    let minus_zero = with_code(&string_4(1), &STRING_4.words[0], 1 << 21);
    let reserved_bit = with_bit_inverted(&string_4(1), 48);
    for other in [minus_zero, reserved_bit] {
        let answer = offer_in_frame(&mut station, 0, 1000, &other);
        assert_eq!(answer, Err(Refusal::Conflict));
    }
}

#[test]
fn a_new_frame_forgets_the_old_strings() {
    let mut station = Station::default();
    take_all(&mut station, 0, 1000, &[string_1(1), string_3()]);
    take_all(&mut station, 0, 1015, &[string_4(1)]);
    assert_eq!(
        offer_in_frame(&mut station, 0, 1015, &string_1(2)),
        Ok(News::Kept)
    );
    assert_eq!(
        offer_in_frame(&mut station, 0, 1000, &string_1(1)),
        Err(Refusal::Stale)
    );
}

#[test]
fn channels_hold_frames_of_their_own() {
    let mut station = Station::default();
    take_all(&mut station, 0, 1000, &[string_1(1)]);
    take_all(&mut station, 23, 10, &[string_1(2)]);
    assert_eq!(
        offer_in_frame(&mut station, 0, 1000, &string_3()),
        Ok(News::Kept)
    );
    assert_eq!(
        offer_in_frame(&mut station, 23, 10, &string_3()),
        Ok(News::Kept)
    );
}

#[test]
fn after_a_reset_any_start_is_taken() {
    let mut station = Station::default();
    take_all(&mut station, 0, 1000, &[string_1(1)]);
    assert_eq!(station.reset(ONE, 0), Ok(()));
    take_all(&mut station, 0, 7, &[string_1(2), string_3()]);
}
