//! Relative code read and written: the first symbol tells the polarity, and the bits
//! that are read do not depend on the polarity.

use second::known;
use second::random::SplitMix64;
use second::relative::{from_relative, to_relative, Polarity};
use second::string::{NavString, BITS, IDLE_BIT};

/// All 85 symbols at random, the known strings among them.
fn symbols() -> Vec<NavString> {
    let mut random = SplitMix64::new(12);
    let known = [known::A, known::B, known::B_INVERTED, [0; 11]];
    let known = known.map(|bytes| NavString::from_bytes(&bytes).unwrap());
    let at_random = (0..2000).map(|_| random.string());
    known.into_iter().chain(at_random).collect()
}

#[test]
fn the_numbers_of_the_polarities() {
    assert_eq!(Polarity::Upright.number(), 0);
    assert_eq!(Polarity::Inverted.number(), 1);
}

#[test]
fn the_first_symbol_tells_the_polarity() {
    for symbols in symbols() {
        let expected = match symbols.to_bytes()[0] >> 7 {
            0 => Polarity::Upright,
            _ => Polarity::Inverted,
        };
        assert_eq!(from_relative(&symbols).1, expected);
    }
}

/// The 84 others do not.
#[test]
fn only_the_first_symbol_tells_it() {
    for symbols in symbols().into_iter().take(100) {
        let (_, polarity) = from_relative(&symbols);
        for number in 1..=BITS {
            let (_, other) = from_relative(&symbols.flipped(&[number]));
            assert_eq!(other == polarity, number != IDLE_BIT, "symbol {number}");
        }
    }
}

#[test]
fn a_string_and_its_inverse_read_alike_but_for_the_polarity() {
    for symbols in symbols() {
        let (string, polarity) = from_relative(&symbols);
        let (same, other) = from_relative(&symbols.inverted());
        assert_eq!(same, string);
        assert_ne!(other, polarity);
    }
}

/// It is its inverse where it was read inverted, and in each case it is not the other.
#[test]
fn what_was_read_and_written_again_is_the_string_itself_where_upright() {
    let (mut upright, mut inverted) = (0, 0);
    for symbols in symbols() {
        let (string, polarity) = from_relative(&symbols);
        let written = to_relative(&string).unwrap();
        let (count, expected) = match polarity {
            Polarity::Upright => (&mut upright, symbols),
            Polarity::Inverted => (&mut inverted, symbols.inverted()),
        };
        *count += 1;
        assert_eq!(written, expected);
        assert_ne!(written, expected.inverted());
        assert_eq!(from_relative(&written), (string, Polarity::Upright));
    }
    assert!(upright >= 900 && inverted >= 900);
}
