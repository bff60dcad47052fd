//! The Hamming check of ICD 4.7: check sums, repair and check bits.

use std::ops::RangeInclusive;

use crate::refusal::{Damage, Refusal};
use crate::string::{NavString, BITS};

/// Check bits 1 to 7 each belong to the sum of their number; bit 8 only to the
/// sum of all 85 bits.
pub const SUM_NUMBERS: RangeInclusive<usize> = 1..=7;
const WHOLE_STRING_CHECK_BIT: usize = 8;

/// The data bits of each sum, as Table 4.13 prints them.
const C1: &[usize] = &[
    9, 10, 12, 13, 15, 17, 19, 20, 22, 24, 26, 28, 30, 32, 34, 35, 37, 39, 41, 43, 45, 47, 49, 51,
    53, 55, 57, 59, 61, 63, 65, 66, 68, 70, 72, 74, 76, 78, 80, 82, 84,
];
const C2: &[usize] = &[
    9, 11, 12, 14, 15, 18, 19, 21, 22, 25, 26, 29, 30, 33, 34, 36, 37, 40, 41, 44, 45, 48, 49, 52,
    53, 56, 57, 60, 61, 64, 65, 67, 68, 71, 72, 75, 76, 79, 80, 83, 84,
];
const C3: &[RangeInclusive<usize>] = &[
    10..=12,
    16..=19,
    23..=26,
    31..=34,
    38..=41,
    46..=49,
    54..=57,
    62..=65,
    69..=72,
    77..=80,
    85..=85,
];
const C4: &[RangeInclusive<usize>] = &[13..=19, 27..=34, 42..=49, 58..=65, 73..=80];
const C5: &[RangeInclusive<usize>] = &[20..=34, 50..=65, 81..=85];
const C6: &[RangeInclusive<usize>] = &[35..=65];
const C7: &[RangeInclusive<usize>] = &[66..=85];

/// What the check found.
#[derive(Clone, Copy, Debug, PartialEq, Eq)]
pub enum Verdict {
    Clean,
    Repaired { bit: usize },
}

impl Verdict {
    /// 0 where nothing was repaired.
    pub fn repaired_bit(self) -> usize {
        match self {
            Verdict::Clean => 0,
            Verdict::Repaired { bit } => bit,
        }
    }
}

/// The sums of one string: C1..C7, and C over the whole string.
#[derive(Clone, Copy, Debug, PartialEq, Eq)]
pub struct Sums {
    c: [bool; 7],
    pub whole: bool,
}

impl Sums {
    pub fn of(string: &NavString) -> Sums {
        let mut c = [false; 7];
        for k in SUM_NUMBERS {
            c[k - 1] = string.bit(k) ^ odd(string, data_bits(k));
        }
        Sums {
            c,
            whole: odd(string, 1..=BITS),
        }
    }

    /// The numbers of the sums that are 1, lowest first.
    pub fn set(&self) -> Vec<usize> {
        SUM_NUMBERS.filter(|k| self.c[k - 1]).collect()
    }

    /// C7..C1 read as a number: the paper's S.
    pub fn s(&self) -> usize {
        self.set().iter().map(|k| 1 << (k - 1)).sum()
    }

    /// Rules a, b and c of ICD 4.7, and the paper's list after Table 4.13. No two of
    /// 31, 32 and 33 fit the same sums.
    fn verdict(&self) -> Result<Verdict, Refusal> {
        match (self.whole, self.set().as_slice()) {
            (false, []) => Ok(Verdict::Clean),
            (true, []) => Err(Refusal::Damaged(Damage::WholeAlone)),
            (false, [_, ..]) => Err(Refusal::Damaged(Damage::WholeMissing)),
            (true, [check_bit]) => Ok(Verdict::Repaired { bit: *check_bit }),
            (true, [_, .., highest]) => self.wrong_data_bit(*highest),
        }
    }

    /// "Bit S+8-K is inverted, K being the highest set sum, if S+8-K is at most 85."
    fn wrong_data_bit(&self, highest: usize) -> Result<Verdict, Refusal> {
        let bit = self.s() + 8 - highest;
        if bit > BITS {
            return Err(Refusal::Damaged(Damage::PlaceAbove85));
        }
        Ok(Verdict::Repaired { bit })
    }
}

/// 31 to 33 by the check rule, then IDLE: "after a repair bit 85 must be 0". The
/// string given back has its repair made.
pub fn check(string: &NavString) -> Result<(Verdict, NavString), Refusal> {
    let verdict = Sums::of(string).verdict()?;
    let repaired = match verdict {
        Verdict::Clean => *string,
        Verdict::Repaired { bit } => string.flipped(&[bit]),
    };
    repaired.require_idle_zero()?;
    Ok((verdict, repaired))
}

/// The same data with the check bits that make every sum 0.
pub fn encode(string: &NavString) -> NavString {
    let mut encoded = *string;
    for k in SUM_NUMBERS {
        encoded.set(k, odd(string, data_bits(k)));
    }
    encoded.set(WHOLE_STRING_CHECK_BIT, false);
    encoded.set(WHOLE_STRING_CHECK_BIT, odd(&encoded, 1..=BITS));
    encoded
}

/// The data bits (9 to 85) of sum k, in Table 4.13.
pub fn data_bits(k: usize) -> Vec<usize> {
    match k {
        1 => C1.to_vec(),
        2 => C2.to_vec(),
        3 => written_out(C3),
        4 => written_out(C4),
        5 => written_out(C5),
        6 => written_out(C6),
        7 => written_out(C7),
        _ => panic!("Table 4.13 has sums 1 to 7, not {k}"),
    }
}

fn written_out(runs: &[RangeInclusive<usize>]) -> Vec<usize> {
    runs.iter().cloned().flatten().collect()
}

/// The sum, modulo 2, of the bits with these numbers.
fn odd(string: &NavString, numbers: impl IntoIterator<Item = usize>) -> bool {
    numbers
        .into_iter()
        .fold(false, |sum, number| sum ^ string.bit(number))
}
