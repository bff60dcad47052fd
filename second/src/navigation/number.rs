//! Numbers as Fortran writes them by D19.12, made of whole numbers alone.

use std::fmt;

use crate::scaled::Scaled;

/// One digit before the point and twelve after it.
const DIGITS: u32 = 13;

/// `-d.ddddddddddddD+ee`: a blank stands where there is no minus.
pub struct D19(pub Scaled);

/// The digits as one number, and the power of ten that the first of them stands for. Zero is
/// all zeros.
fn digits_and_exponent(scaled: Scaled) -> (u128, i64) {
    // A unit of 2^-k is 5^k in units of 10^-k.
    let whole = u128::from(scaled.raw.unsigned_abs()) * 5_u128.pow(scaled.binary_places);
    let Some(leading) = whole.checked_ilog10() else {
        return (0, 0);
    };
    let exponent = i64::from(leading) - i64::from(scaled.binary_places);
    match (leading + 1).checked_sub(DIGITS) {
        Some(too_many) => normalised(rounded(whole, 10_u128.pow(too_many)), exponent),
        None => (whole * 10_u128.pow(DIGITS - 1 - leading), exponent),
    }
}

/// "Rounded to nearest, ties to even": the number in units of `unit`, which is even or 1.
fn rounded(number: u128, unit: u128) -> u128 {
    let (quotient, rest) = (number / unit, number % unit);
    let is_odd = quotient % 2 == 1;
    match (2 * rest).cmp(&unit) {
        std::cmp::Ordering::Greater => quotient + 1,
        std::cmp::Ordering::Equal if is_odd => quotient + 1,
        _ => quotient,
    }
}

/// Nines that were rounded up have a digit more, which is a 0.
fn normalised(digits: u128, exponent: i64) -> (u128, i64) {
    match digits == 10_u128.pow(DIGITS) {
        true => (digits / 10, exponent + 1),
        false => (digits, exponent),
    }
}

/// "Zero has no minus."
impl fmt::Display for D19 {
    fn fmt(&self, out: &mut fmt::Formatter) -> fmt::Result {
        let (digits, exponent) = digits_and_exponent(self.0);
        let digits = format!("{digits:0width$}", width = DIGITS as usize);
        let (first, others) = digits.split_at(1);
        let sign = if self.0.raw < 0 { '-' } else { ' ' };
        write!(out, "{sign}{first}.{others}D{exponent:+03}")
    }
}
