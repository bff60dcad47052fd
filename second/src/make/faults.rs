//! What can be wrong with a plain string that is read.

use crate::alter::{codes_out_of_range, with_bit_inverted, with_code, with_m};
use crate::known::FLIPS_OF_CHECK_BITS;
use crate::random::SplitMix64;
use crate::string::{NavString, BYTES, IDLE_BIT, PADDING};
use crate::words::kinds::Kind;

#[derive(Clone, Copy, Debug, PartialEq, Eq)]
pub enum Fault {
    Length,
    Padding,
    /// These check bits are flipped: m, data and bit 85 stay.
    Damage(&'static [usize]),
    Idle,
    NoNumber,
    OtherNumber,
    Range,
}

/// Those that one byte can tell.
const WRONG_LENGTHS: [usize; 7] = [0, 1, 2, 10, 12, 22, 255];

/// All that a string of this kind can have, in the order of tests.
pub fn faults_of(kind: &Kind) -> Vec<Fault> {
    let mut faults = vec![Fault::Length, Fault::Padding];
    faults.extend(FLIPS_OF_CHECK_BITS.map(|(_, flips)| Fault::Damage(flips)));
    faults.extend([Fault::Idle, Fault::NoNumber, Fault::OtherNumber]);
    faults.extend(kind.words_with_range().map(|_| Fault::Range));
    faults
}

/// The same, but the string has its eleven bytes.
pub fn faults_in_eleven_bytes(kind: &Kind) -> Vec<Fault> {
    let mut faults = faults_of(kind);
    faults.retain(|&fault| fault != Fault::Length);
    faults
}

/// None of them, each alone, and each two that can come together.
pub fn up_to_two(faults: &[Fault]) -> Vec<Vec<Fault>> {
    let mut chosen = vec![Vec::new()];
    for (index, &first) in faults.iter().enumerate() {
        chosen.push(vec![first]);
        let others = faults[index + 1..].iter();
        let others = others.filter(|&&second| can_be_both(first, second));
        chosen.extend(others.map(|&second| vec![first, second]));
    }
    chosen
}

/// A string has one m and one cause of damage.
fn can_be_both(first: Fault, second: Fault) -> bool {
    !matches!(
        (first, second),
        (Fault::Damage(_), Fault::Damage(_)) | (Fault::NoNumber, Fault::OtherNumber)
    )
}

/// A string with these faults, which stand in the order of tests. Those that are looked for
/// last are made first, so that the check bits follow all but the damage.
pub fn with_faults(
    random: &mut SplitMix64,
    kind: &Kind,
    string: &NavString,
    faults: &[Fault],
) -> Vec<u8> {
    let mut string = *string;
    for fault in faults.iter().rev() {
        string = with_fault_in_bits(random, kind, &string, *fault);
    }
    let mut bytes = string.to_bytes().to_vec();
    if faults.contains(&Fault::Padding) {
        bytes[BYTES - 1] |= 1 + random.below(usize::from(PADDING)) as u8;
    }
    if faults.contains(&Fault::Length) {
        bytes.resize(random.one_of(&WRONG_LENGTHS), 0);
    }
    bytes
}

fn with_fault_in_bits(
    random: &mut SplitMix64,
    kind: &Kind,
    string: &NavString,
    fault: Fault,
) -> NavString {
    match fault {
        Fault::Length | Fault::Padding => *string,
        Fault::Damage(flips) => string.flipped(flips),
        Fault::Idle => with_bit_inverted(string, IDLE_BIT),
        Fault::NoNumber => with_m(string, 0),
        Fault::OtherNumber => {
            let others: Vec<usize> = kind.strings_of_others().collect();
            with_m(string, random.one_of(&others))
        }
        Fault::Range => out_of_range(random, kind, string),
    }
}

/// Where the kind has a word with a range.
pub fn out_of_range(random: &mut SplitMix64, kind: &Kind, string: &NavString) -> NavString {
    match kind.words_with_range().next() {
        Some(word) => with_code(string, word, random.one_of(&codes_out_of_range(word))),
        None => *string,
    }
}
