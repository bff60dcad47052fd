//! The paper's "Known strings and edges", as far as they are about strings alone.

use second::hamming::{check, encode, Sums, Verdict};
use second::known::{a, A, B, B_DAMAGED, B_INVERTED, FLIPS_TAKEN_FOR_BIT_85, FLIPS_THAT_DAMAGE};
use second::refusal::Refusal;
use second::relative::{from_relative, to_relative, Polarity};
use second::string::{NavString, BITS};

fn string(bytes: &[u8]) -> NavString {
    NavString::from_bytes(bytes).unwrap()
}

fn set_bits(string: &NavString) -> Vec<usize> {
    (1..=BITS).rev().filter(|&n| string.bit(n)).collect()
}

fn repaired(flips: &[usize]) -> (usize, NavString) {
    match check(&a().flipped(flips)) {
        Ok((Verdict::Repaired { bit }, string)) => (bit, string),
        other => panic!("flips {flips:?} of A are not repaired: {other:?}"),
    }
}

fn refusal_number(flips: &[usize]) -> u8 {
    match check(&a().flipped(flips)) {
        Err(refusal) => refusal.number(),
        other => panic!("flips {flips:?} of A are not refused: {other:?}"),
    }
}

fn s_of_flips(flips: &[usize]) -> usize {
    Sums::of(&a().flipped(flips)).s()
}

#[test]
fn a_is_string_one_with_zero_data_and_clean() {
    assert_eq!(set_bits(&a()), [81, 8, 7, 5]);
    assert_eq!(check(&a()), Ok((Verdict::Clean, a())));
    assert_eq!(a().to_bytes(), A);
}

#[test]
fn a_has_the_check_bits_of_its_data() {
    let mut data = NavString::zero();
    data.set(81, true);
    assert_eq!(encode(&data), a());
}

#[test]
fn b_is_a_in_relative_form() {
    assert_eq!(to_relative(&a()), Ok(string(&B)));
    assert_eq!(string(&B).inverted(), string(&B_INVERTED));
}

#[test]
fn b_reads_as_a_upright_and_its_inverse_as_a_inverted() {
    assert_eq!(from_relative(&string(&B)), (a(), Polarity::Upright));
    let inverted = from_relative(&string(&B_INVERTED));
    assert_eq!(inverted, (a(), Polarity::Inverted));
}

#[test]
fn bit_9_flipped_is_repaired() {
    assert_eq!(s_of_flips(&[9]), 3);
    assert_eq!(repaired(&[9]), (9, a()));
}

#[test]
fn bit_85_flipped_is_repaired() {
    assert_eq!(s_of_flips(&[85]), 84);
    assert_eq!(repaired(&[85]), (85, a()));
}

#[test]
fn bit_5_flipped_is_repaired() {
    assert_eq!(repaired(&[5]), (5, a()));
}

#[test]
fn bit_8_flipped_is_31() {
    assert_eq!(s_of_flips(&[8]), 0);
    assert_eq!(refusal_number(&[8]), 31);
}

#[test]
fn bits_9_and_10_flipped_are_32() {
    assert_eq!(s_of_flips(&[9, 10]), 6);
    assert_eq!(refusal_number(&[9, 10]), 32);
}

#[test]
fn bits_85_9_and_8_flipped_are_33() {
    assert_eq!(s_of_flips(&[85, 9, 8]), 87);
    assert_eq!(refusal_number(&[85, 9, 8]), 33);
}

#[test]
fn a_damaged_in_relative_form() {
    for ((number, flips), (same_number, symbols)) in FLIPS_THAT_DAMAGE.into_iter().zip(B_DAMAGED) {
        assert_eq!(refusal_number(flips), number);
        assert_eq!(same_number, number);
        assert_eq!(to_relative(&a().flipped(flips)), Ok(string(&symbols)));
    }
}

#[test]
fn bits_9_10_and_12_flipped_are_wrongly_repaired() {
    assert_eq!(s_of_flips(&[9, 10, 12]), 1);
    let wrong = a().flipped(&[9, 10, 12, 1]);
    assert_eq!(repaired(&[9, 10, 12]), (1, wrong));
}

#[test]
fn a_repair_that_sets_bit_85_is_idle() {
    let string = a().flipped(&FLIPS_TAKEN_FOR_BIT_85);
    assert!(!string.bit(85));
    assert_eq!(Sums::of(&string).s(), 84);
    assert_eq!(check(&string), Err(Refusal::Idle));
}

#[test]
fn eleven_zero_bytes_are_clean() {
    let zeros = string(&[0; 11]);
    assert_eq!(check(&zeros), Ok((Verdict::Clean, zeros)));
}
