//! The ranging code of ICD 3.3.2.1, by what the ICD says of it and by the laws of such codes.

use std::collections::HashSet;

use second::ranging::{chip, chips, CHIPS};

fn period() -> Vec<u8> {
    chips().take(CHIPS).collect()
}

#[test]
fn the_first_chips_are_those_of_the_paper() {
    assert_eq!(period()[..9], [1, 1, 1, 1, 1, 1, 1, 0, 0]);
}

/// With taps 4 and 9 the twelfth chip would be 1.
#[test]
fn five_zeros_follow_the_seven_ones() {
    assert_eq!(period()[7..13], [0, 0, 0, 0, 0, 1]);
}

#[test]
fn a_period_has_256_ones_and_255_zeros() {
    let ones = period().iter().filter(|&&chip| chip == 1).count();
    assert_eq!(ones, 256);
    assert!(period().iter().all(|&chip| chip <= 1));
}

#[test]
fn chips_come_again_after_511_and_not_before() {
    let chips: Vec<u8> = chips().take(3 * CHIPS).collect();
    assert_eq!(chips[..2 * CHIPS], chips[CHIPS..]);
    for shorter in 1..CHIPS {
        assert_ne!(chips[..CHIPS], chips[shorter..shorter + CHIPS], "{shorter}");
    }
}

/// "1 + x^5 + x^9": each chip is the sum of those five and nine before it.
#[test]
fn each_chip_follows_from_those_before_it() {
    let chips: Vec<u8> = chips().take(2 * CHIPS).collect();
    for number in 9..chips.len() {
        assert_eq!(chips[number], chips[number - 5] ^ chips[number - 9]);
    }
}

/// Of a code of maximum length.
#[test]
fn nine_chips_in_a_row_are_every_number_but_0() {
    let chips: Vec<u8> = chips().take(CHIPS + 8).collect();
    let numbers: HashSet<u32> = chips
        .windows(9)
        .map(|nine| {
            nine.iter()
                .fold(0, |number, &chip| 2 * number + u32::from(chip))
        })
        .collect();
    assert_eq!(numbers, (1..512).collect());
}

#[test]
fn a_chip_is_that_of_its_number_modulo_511() {
    let period = period();
    for number in 0..=65_535 {
        assert_eq!(chip(number), period[number % 511], "{number}");
    }
}
