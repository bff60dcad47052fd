//! A word in its unit: as a 64-bit float and as a decimal fraction, both exact and both made
//! of whole numbers alone.

use std::fmt;

/// A 64-bit float has one sign bit, eleven bits of exponent and 52 of fraction. The exponent
/// of 1 is written as 1023; the fraction lacks its leading one.
const FRACTION_BITS: u32 = 52;
const EXPONENT_OF_ONE: u64 = 1023;
const SIGN: u64 = 1 << 63;
const FRACTION: u64 = (1 << FRACTION_BITS) - 1;

/// The raw number times the unit, which is 2 to the power of minus `binary_places`.
#[derive(Clone, Copy, Debug, PartialEq, Eq)]
pub struct Scaled {
    pub raw: i64,
    pub binary_places: u32,
}

impl Scaled {
    /// The float's bits. A raw number of 32 bits has more room in the fraction than it needs,
    /// so nothing is rounded. Zero has no leading one and is all zeros, without a sign.
    pub fn float_bits(self) -> u64 {
        let magnitude = self.raw.unsigned_abs();
        let Some(leading_one) = magnitude.checked_ilog2() else {
            return 0;
        };
        let sign = if self.raw < 0 { SIGN } else { 0 };
        let exponent = EXPONENT_OF_ONE + u64::from(leading_one) - u64::from(self.binary_places);
        let fraction = magnitude << (FRACTION_BITS - leading_one) & FRACTION;
        sign | exponent << FRACTION_BITS | fraction
    }
}

/// As many decimals as binary places: a unit of 2^-k is 5^k in units of 10^-k.
impl fmt::Display for Scaled {
    fn fmt(&self, out: &mut fmt::Formatter) -> fmt::Result {
        let places = self.binary_places as usize;
        let decimal = u128::from(self.raw.unsigned_abs()) * 5_u128.pow(self.binary_places);
        let digits = format!("{decimal:0width$}", width = places + 1);
        let (whole, decimals) = digits.split_at(digits.len() - places);
        let sign = if self.raw < 0 { "-" } else { "" };
        write!(out, "{sign}{whole}.{decimals}")
    }
}
