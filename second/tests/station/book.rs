//! The almanac book: what is shown, and which entry is kept.

use second::known::received_frame;
use second::refusal::Refusal;
use second::station::almanac::day_of;
use second::station::book::Entry;
use second::station::card::ONE;
use second::station::Station;
use second::string::NavString;
use second::words::kinds::{ALMANAC_DAY, ALMANAC_SLOT, FRAME_5_STRING_14, H};
use second::words::write;

use crate::strings::*;

const NOTHING: Result<Entry, Refusal> = Err(Refusal::Nothing);

/// The slots that have an entry.
fn slots(station: &Station) -> Vec<usize> {
    (1..=24)
        .filter(|&slot| station.entry(ONE, slot).is_ok())
        .collect()
}

/// A frame with five pairs; string 6 has the slot `first`.
fn frame(first: i64) -> Vec<NavString> {
    let mut strings = vec![string_5(6, 100)];
    strings.extend(five_pairs(first));
    strings
}

#[test]
fn days_count_through_the_periods() {
    assert_eq!(day_of(&string_5(1, 1)), Some(1));
    assert_eq!(day_of(&string_5(6, 1461)), Some(8766));
    assert_eq!(day_of(&string_5(7, 1)), Some(8767));
    assert_eq!(day_of(&string_5(31, 1461)), Some(31 * 1461));
    assert_eq!(day_of(&string_5(0, 1461)), None);
}

#[test]
fn the_received_frame_shows_satellites_16_to_20() {
    let station = station_with_received_frame(0);
    assert_eq!(slots(&station), [16, 17, 18, 19, 20]);
    for (index, slot) in (16..=20).enumerate() {
        let strings = received_frame();
        let (even, odd) = (strings[5 + 2 * index], strings[6 + 2 * index]);
        let entry = station.entry(ONE, slot).unwrap();
        assert_eq!(entry.day, 5 * 1461 + 104);
        assert_eq!(entry.even, even.number((80, 9)));
        assert_eq!(entry.odd, odd.number((80, 10)));
    }
}

#[test]
fn a_slot_is_empty_while_one_of_the_three_has_not_come() {
    let three = [string_5(6, 1), even(6, 3, 1, 0), odd(7, 0, 0)];
    for last in 0..3 {
        let mut station = Station::default();
        for index in (0..3).filter(|&index| index != last) {
            take_all(&mut station, 0, 100, &[three[index]]);
        }
        assert_eq!(station.entry(ONE, 3), NOTHING);
        take_all(&mut station, 0, 100, &[three[last]]);
        assert!(station.entry(ONE, 3).is_ok());
    }
}

#[test]
fn halves_of_two_frames_are_no_pair() {
    let mut station = Station::default();
    take_all(&mut station, 0, 100, &[string_5(6, 1), even(6, 3, 1, 0)]);
    take_all(&mut station, 0, 115, &[string_5(6, 1), odd(7, 0, 0)]);
    assert_eq!(slots(&station), []);
}

#[test]
fn halves_of_two_channels_are_no_pair() {
    let mut station = Station::default();
    take_all(&mut station, 0, 100, &[string_5(6, 1), even(6, 3, 1, 0)]);
    take_all(&mut station, 1, 100, &[string_5(6, 1), odd(7, 0, 0)]);
    assert_eq!(slots(&station), []);
}

#[test]
fn the_day_comes_from_the_same_frame() {
    let mut station = Station::default();
    take_all(&mut station, 0, 100, &[string_5(6, 1)]);
    take_all(&mut station, 0, 115, &[even(6, 3, 1, 0), odd(7, 0, 0)]);
    take_all(&mut station, 1, 115, &[string_5(6, 1)]);
    assert_eq!(slots(&station), []);
}

#[test]
fn an_odd_half_pairs_with_the_even_half_before_it_only() {
    let mut station = Station::default();
    take_all(
        &mut station,
        0,
        100,
        &[string_5(6, 1), odd(7, 0, 0), even(8, 3, 1, 0)],
    );
    assert_eq!(slots(&station), []);
}

#[test]
fn without_n4_nothing_is_shown() {
    let mut station = Station::default();
    take_all(
        &mut station,
        0,
        100,
        &[string_5(0, 1), even(6, 3, 1, 0), odd(7, 0, 0)],
    );
    assert_eq!(slots(&station), []);
}

#[test]
fn a_word_out_of_range_hides_what_it_belongs_to() {
    let right = frame(1);
    let with = |m: usize, word, code| {
        let mut strings = right.clone();
        strings[m - 5] = with_code(&strings[m - 5], word, code);
        let mut station = Station::default();
        take_all(&mut station, 0, 100, &strings);
        slots(&station)
    };
    assert_eq!(with(5, &ALMANAC_DAY, 1), [1, 2, 3, 4, 5]);
    assert_eq!(with(5, &ALMANAC_DAY, 0), []);
    assert_eq!(with(5, &ALMANAC_DAY, 1462), []);
    assert_eq!(with(8, &ALMANAC_SLOT, 0), [1, 3, 4, 5]);
    assert_eq!(with(8, &ALMANAC_SLOT, 25), [1, 3, 4, 5]);
    assert_eq!(with(11, &H, 14), [1, 2, 4, 5]);
    assert_eq!(with(11, &H, 24), [1, 2, 4, 5]);
}

#[test]
fn an_entry_goes_to_the_slot_that_it_carries() {
    let mut station = Station::default();
    take_all(
        &mut station,
        0,
        100,
        &[string_5(6, 1), even(12, 24, 1, 0), odd(13, 0, 0)],
    );
    assert_eq!(slots(&station), [24]);
}

#[test]
fn strings_14_and_15_are_a_pair_in_frames_1_to_4() {
    for first in [1, 6, 11, 16] {
        let mut station = Station::default();
        take_all(&mut station, 0, 100, &frame(first));
        let all_five: Vec<usize> = (first as usize..).take(5).collect();
        assert_eq!(slots(&station), all_five);
    }
}

#[test]
fn strings_14_and_15_are_no_pair_with_the_frame_number_unknown() {
    for first in (1..=20).filter(|first| first % 5 != 1) {
        let mut station = Station::default();
        take_all(&mut station, 0, 100, &frame(first));
        let but_the_last: Vec<usize> = (first as usize..).take(4).collect();
        assert_eq!(slots(&station), but_the_last);
    }
}

#[test]
fn strings_14_and_15_are_no_pair_while_string_6_is_missing() {
    let mut strings = frame(1);
    let string_6 = strings.remove(1);
    let mut station = Station::default();
    take_all(&mut station, 0, 100, &strings);
    assert_eq!(slots(&station), [2, 3, 4]);
    take_all(&mut station, 0, 100, &[string_6]);
    assert_eq!(slots(&station), [1, 2, 3, 4, 5]);
}

#[test]
fn the_last_of_the_three_shows_the_pair_of_strings_14_and_15() {
    for last in [5, 6, 14, 15] {
        let mut strings = frame(1);
        let last = strings.remove(last - 5);
        let mut station = Station::default();
        take_all(&mut station, 0, 100, &strings);
        assert_eq!(station.entry(ONE, 5), NOTHING);
        take_all(&mut station, 0, 100, &[last]);
        assert!(station.entry(ONE, 5).is_ok());
    }
}

/// B1 is chosen so that bits 77 to 73 would read as slot 7.
#[test]
fn string_14_of_frame_5_is_no_satellite() {
    let b1 = 7 << 3;
    let string_14 = write(&FRAME_5_STRING_14, 14, &[b1, 0, 0]).unwrap();
    assert_eq!(ALMANAC_SLOT.read(&string_14), Ok(7));
    let mut strings = frame(20);
    strings.truncate(9);
    for (index, slot) in (21..=24).enumerate() {
        strings[1 + 2 * index] = even(6 + 2 * index, slot, 1, 0);
    }
    strings.extend([string_14, odd(15, 0, 0)]);
    let mut station = Station::default();
    take_all(&mut station, 0, 100, &strings);
    assert_eq!(slots(&station), [21, 22, 23, 24]);
}

/// Entries for slot 3, each less than the one after it.
fn rising() -> [[NavString; 3]; 6] {
    [
        [string_5(6, 1461), even(6, 3, 1, 9), odd(7, 9, 0)],
        [string_5(7, 1), even(8, 3, 0, 0), odd(9, 0, 0)],
        [string_5(7, 1), even(6, 3, 0, 0), odd(7, 1, 0)],
        [string_5(7, 1), even(10, 3, 0, 1), odd(11, 0, 0)],
        [string_5(7, 1), even(6, 3, 1, 0), odd(7, 0, 0)],
        [string_5(7, 2), even(12, 3, 0, 0), odd(13, 0, 0)],
    ]
}

fn entry_of(strings: &[NavString]) -> Entry {
    let mut station = Station::default();
    take_all(&mut station, 0, 100, strings);
    station.entry(ONE, 3).unwrap()
}

#[test]
fn the_greater_entry_is_kept_whichever_comes_first() {
    for (lesser, strings) in rising().iter().enumerate() {
        for greater in &rising()[lesser..] {
            for order in [[&strings[..], greater], [&greater[..], strings]] {
                let mut station = Station::default();
                show(&mut station, 0, order[0]);
                show(&mut station, 1, order[1]);
                assert_eq!(station.entry(ONE, 3), Ok(entry_of(greater)));
            }
        }
    }
}

#[test]
fn the_greatest_of_many_is_kept_in_any_order() {
    let all = rising();
    for shift in 0..all.len() {
        let mut station = Station::default();
        for index in 0..all.len() {
            show(&mut station, index, &all[(index * 5 + shift) % all.len()]);
        }
        assert_eq!(station.entry(ONE, 3), Ok(entry_of(&all[5])));
    }
}

#[test]
fn l_m_channel_and_start_are_no_part_of_an_entry() {
    let entry = entry_of(&[string_5(7, 1), even(6, 3, 1, 5), odd(7, 6, 0)]);
    assert_eq!(
        entry_of(&[string_5(7, 1), even(6, 3, 1, 5), odd(7, 6, 1)]),
        entry
    );
    assert_eq!(
        entry_of(&[string_5(7, 1), even(12, 3, 1, 5), odd(13, 6, 0)]),
        entry
    );
    let mut station = Station::default();
    take_all(
        &mut station,
        9,
        777,
        &[string_5(7, 1), even(6, 3, 1, 5), odd(7, 6, 0)],
    );
    assert_eq!(station.entry(ONE, 3), Ok(entry));
}

/// An even string with minus zero at tau A differs in its bits from one with plus.
#[test]
fn minus_zeros_stay_in_the_bits() {
    let minus = with_bit_inverted(&even(6, 3, 1, 0), 72);
    let entry = entry_of(&[string_5(7, 1), minus, odd(7, 0, 0)]);
    assert!(entry > entry_of(&[string_5(7, 1), even(6, 3, 1, 0), odd(7, 0, 0)]));
}

#[test]
fn a_reset_leaves_the_book() {
    let mut station = station_with_received_frame(0);
    let before = (16..=20)
        .map(|slot| station.entry(ONE, slot))
        .collect::<Vec<_>>();
    assert_eq!(station.reset(ONE, 0), Ok(()));
    let after = (16..=20)
        .map(|slot| station.entry(ONE, slot))
        .collect::<Vec<_>>();
    assert_eq!(before, after);
}

#[test]
fn a_new_frame_leaves_the_book() {
    let mut station = station_with_received_frame(0);
    take_all(&mut station, 0, 200, &[string_1(0)]);
    assert_eq!(slots(&station), [16, 17, 18, 19, 20]);
}
