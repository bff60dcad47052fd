//! The reader and the encoder: the words of a string, and a string of words.

pub mod kinds;
pub mod signed;
pub mod word;

use crate::hamming::{self, Verdict};
use crate::refusal::Refusal;
use crate::string::{NavString, STRING_NUMBER};
use kinds::Kind;

/// Reads a plain string. Order of refusals: 2, 31 to 33, 4, 5, 11, 10. The string is
/// read with its repair made, m included.
pub fn read(kind: &Kind, bytes: &[u8]) -> Result<(usize, Vec<i64>), Refusal> {
    let (_, string) = checked(bytes)?;
    let m = string.m();
    require_place(kind, m)?;
    let values = read_words(kind, &string)?;
    Ok((m, values))
}

/// What the reader does of any kind: the verdict, and the plain string with its repair made.
/// Order of refusals: 2, 31 to 33, 4, 5.
pub fn checked(bytes: &[u8]) -> Result<(Verdict, NavString), Refusal> {
    let string = NavString::from_bytes(bytes)?;
    let (verdict, string) = hamming::check(&string)?;
    string.require_m()?;
    Ok((verdict, string))
}

/// The values of a kind's words, whatever the string's m and check bits.
pub fn read_words(kind: &Kind, string: &NavString) -> Result<Vec<i64>, Refusal> {
    kind.words.iter().map(|word| word.read(string)).collect()
}

/// Writes a plain string, checked, from one value for each word of the kind. Order
/// of refusals: 11, 10. "Reserved bits are written 0."
pub fn write(kind: &Kind, m: usize, values: &[i64]) -> Result<NavString, Refusal> {
    require_place(kind, m)?;
    let mut string = NavString::zero();
    string.set_number(STRING_NUMBER, m as u128);
    for (word, &value) in kind.words.iter().zip(values) {
        word.write(&mut string, value)?;
    }
    Ok(hamming::encode(&string))
}

/// PLACE: "m not of the kind asked".
fn require_place(kind: &Kind, m: usize) -> Result<(), Refusal> {
    match kind.strings.contains(&m) {
        true => Ok(()),
        false => Err(Refusal::Place),
    }
}
