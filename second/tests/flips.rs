//! Flips of encoded strings. One is repaired unless it is bit 8, which is 31; every
//! two are 32; of three or more the sums tell.

mod common;

use common::encoded_strings;
use second::hamming::{check, encode, Sums, Verdict};
use second::known::{FLIPS_OF_CHECK_BITS, FLIPS_THAT_DAMAGE};
use second::random::SplitMix64;
use second::refusal::{Damage, Refusal};
use second::string::{NavString, BITS, IDLE_BIT};

/// The rows for 31, 32 and 33 by the sums S and C; none where the string is clean or
/// has a repair. No two rows fit the same sums.
fn cause(s: usize, c: bool) -> Option<Damage> {
    let highest = (1..=7).rev().find(|k| s >> (k - 1) & 1 == 1);
    let place = highest.map_or(0, |k| s + 8 - k);
    let rows = [
        (s == 0 && c, Damage::WholeAlone),
        (s != 0 && !c, Damage::WholeMissing),
        (c && s.count_ones() >= 2 && place > 85, Damage::PlaceAbove85),
    ];
    let mut fitting = rows.into_iter().filter(|&(fits, _)| fits);
    let cause = fitting.next().map(|(_, cause)| cause);
    assert_eq!(fitting.next(), None);
    cause
}

fn damage_found(string: &NavString) -> Option<Damage> {
    match check(string) {
        Err(Refusal::Damaged(damage)) => Some(damage),
        _ => None,
    }
}

/// Table 4.13's tests hold these against the paper's rule.
fn positions() -> Vec<usize> {
    let position = |bit| Sums::of(&NavString::zero().flipped(&[bit])).s();
    (1..=BITS).map(position).collect()
}

#[test]
fn every_single_flip_is_repaired_and_bit_8_is_31() {
    for string in encoded_strings() {
        for bit in 1..=BITS {
            let expected = match bit {
                8 => Err(Refusal::Damaged(Damage::WholeAlone)),
                _ => Ok((Verdict::Repaired { bit }, string)),
            };
            assert_eq!(check(&string.flipped(&[bit])), expected, "bit {bit}");
        }
    }
}

#[test]
fn every_double_flip_is_32() {
    let expected = Err(Refusal::Damaged(Damage::WholeMissing));
    for string in encoded_strings() {
        for high in 1..=BITS {
            for low in 1..high {
                let answer = check(&string.flipped(&[high, low]));
                assert_eq!(answer, expected, "bits {high}, {low}");
            }
        }
    }
}

/// 31 where the three positions cancel, 33 where they add up to 85 or more, never 32.
/// The counts are those of all triples of the positions 0 to 84.
#[test]
fn every_triple_flip_is_31_or_33_or_not_damaged() {
    let positions = positions();
    for string in encoded_strings() {
        let (mut cancelled, mut above, mut others) = (0, 0, 0);
        for high in 3..=BITS {
            for middle in 2..high {
                for low in 1..middle {
                    let flips = [high, middle, low];
                    let sum = flips.iter().fold(0, |sum, bit| sum ^ positions[bit - 1]);
                    let (count, expected) = match sum {
                        0 => (&mut cancelled, Some(Damage::WholeAlone)),
                        1..=84 => (&mut others, None),
                        _ => (&mut above, Some(Damage::PlaceAbove85)),
                    };
                    *count += 1;
                    let found = damage_found(&string.flipped(&flips));
                    assert_eq!(found, expected, "bits {flips:?}");
                }
            }
        }
        assert_eq!((cancelled, above, others), (861, 29_342, 68_567));
    }
}

/// A data bit and the check bits of its position, with bit 8 where they are an even
/// number: three to seven flips.
#[test]
fn flips_that_cancel_are_31() {
    for string in encoded_strings() {
        for bit in 9..=BITS {
            let position = positions()[bit - 1];
            let mut flips: Vec<usize> = (1..=7).filter(|k| position >> (k - 1) & 1 == 1).collect();
            flips.push(bit);
            if flips.len().is_multiple_of(2) {
                flips.push(8);
            }
            assert!(flips.len() >= 3);
            let found = damage_found(&string.flipped(&flips));
            assert_eq!(found, Some(Damage::WholeAlone), "bits {flips:?}");
        }
    }
}

/// S from 85 up to 127; S = 84 names bit 85, which is then 1.
#[test]
fn places_from_86_up_to_128_are_33() {
    for string in encoded_strings() {
        for place in 86..=128 {
            let s = place - 8 + 7;
            let found = damage_found(&with_sums(&string, s, true));
            assert_eq!(found, Some(Damage::PlaceAbove85), "place {place}");
        }
        let place_85 = with_sums(&string, 84, true);
        assert_eq!(check(&place_85), Err(Refusal::Idle));
    }
}

/// The same data with check bits flipped until the sums are these.
fn with_sums(encoded: &NavString, s: usize, c: bool) -> NavString {
    let mut flips: Vec<usize> = (1..=7).filter(|k| s >> (k - 1) & 1 == 1).collect();
    if (flips.len() % 2 == 1) != c {
        flips.push(8);
    }
    encoded.flipped(&flips)
}

/// All 256 pairs of S and C, on several strings: one is clean, 84 have a repair, one
/// is 31, 127 are 32 and 43 are 33.
#[test]
fn the_sums_alone_tell_the_causes_apart() {
    for string in encoded_strings() {
        let mut found = Vec::new();
        for s in 0..128 {
            for c in [false, true] {
                let altered = with_sums(&string, s, c);
                assert_eq!((Sums::of(&altered).s(), Sums::of(&altered).whole), (s, c));
                assert_eq!(damage_found(&altered), cause(s, c), "S = {s}, C = {c}");
                found.push(cause(s, c));
            }
        }
        let count = |wanted| found.iter().filter(|&&cause| cause == wanted).count();
        assert_eq!(count(None), 1 + 84);
        assert_eq!(count(Some(Damage::WholeAlone)), 1);
        assert_eq!(count(Some(Damage::WholeMissing)), 127);
        assert_eq!(count(Some(Damage::PlaceAbove85)), 43);
    }
}

/// Whatever the data, and bit 85 too: two strings with the same sums are damaged by
/// the same cause, or both are not.
#[test]
fn strings_at_random_are_damaged_as_their_sums_tell() {
    let mut random = SplitMix64::new(8);
    for _ in 0..20_000 {
        let string = random.string();
        let sums = Sums::of(&string);
        assert_eq!(damage_found(&string), cause(sums.s(), sums.whole));
    }
}

#[test]
fn flips_of_each_cause_damage_every_string() {
    for string in encoded_strings() {
        for (number, flips) in FLIPS_THAT_DAMAGE.into_iter().chain(FLIPS_OF_CHECK_BITS) {
            let answer = check(&string.flipped(flips));
            assert_eq!(answer.map_err(Refusal::number), Err(number));
        }
    }
}

#[test]
fn bit_85_set_is_idle_when_clean_and_when_repaired() {
    for mut string in encoded_strings() {
        string.flip(IDLE_BIT);
        let string = encode(&string);
        assert_eq!(check(&string), Err(Refusal::Idle));
        for bit in (1..=BITS).filter(|&bit| bit != 8) {
            let answer = check(&string.flipped(&[bit]));
            assert_eq!(answer, Err(Refusal::Idle), "bit {bit}");
        }
    }
}

#[test]
fn bit_85_set_and_damaged_is_damaged() {
    for mut string in encoded_strings() {
        string.flip(IDLE_BIT);
        let string = encode(&string);
        for (number, flips) in FLIPS_THAT_DAMAGE {
            let answer = check(&string.flipped(flips));
            assert_eq!(answer.map_err(Refusal::number), Err(number));
        }
    }
}
