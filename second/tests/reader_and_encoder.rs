//! The reader and the encoder: orders of refusals, records there and back.

use second::alter::{with_code, with_m};
use second::hamming::{check, encode};
use second::known::{a, A, FLIPS_THAT_DAMAGE};
use second::random::SplitMix64;
use second::refusal::{Damage, Refusal};
use second::string::{NavString, IDLE_BIT};
use second::words::kinds::{
    Kind, EVEN, FRAME_5_STRING_14, H, KINDS, ODD, STRING_1, STRING_2, STRING_5,
};
use second::words::{read, word::Form, write};

fn read_string(kind: &Kind, string: &NavString) -> Result<(usize, Vec<i64>), Refusal> {
    read(kind, &string.to_bytes())
}

fn range<T>(place: usize) -> Result<T, Refusal> {
    Err(Refusal::Range { place })
}

#[test]
fn a_reads_as_string_1_with_all_words_zero() {
    assert_eq!(read(&STRING_1, &A), Ok((1, vec![0; 5])));
    assert_eq!(write(&STRING_1, 1, &[0; 5]), Ok(a()));
}

#[test]
fn a_record_written_and_read_back_is_the_same_record() {
    let mut random = SplitMix64::new(2);
    for kind in KINDS {
        for &m in kind.strings {
            for _ in 0..50 {
                let values = random.legal_values(kind);
                let string = write(kind, m, &values).unwrap();
                assert_eq!(read_string(kind, &string), Ok((m, values)));
            }
        }
    }
}

/// "Reserved bits and minus zeros become plain zeros and the check bits follow."
#[test]
fn a_string_read_and_written_again_loses_only_reserved_bits_and_minus_zeros() {
    let mut random = SplitMix64::new(3);
    for kind in KINDS {
        for index in 0..kind.words.len() {
            let plain = with_zero_at(kind, index, random.legal_values(kind));
            let (m, values) =
                read_string(kind, &with_bits_of_no_meaning(kind, index, &plain)).unwrap();
            assert_eq!(write(kind, m, &values), Ok(plain), "{}", kind.name);
        }
    }
}

/// A signed word is made 0; others stay as they are.
fn with_zero_at(kind: &Kind, index: usize, mut values: Vec<i64>) -> NavString {
    if kind.words[index].form == Form::Signed {
        values[index] = 0;
    }
    write(kind, kind.strings[0], &values).unwrap()
}

/// The same meaning in other bits: minus zero at the index, all reserved bits set.
fn with_bits_of_no_meaning(kind: &Kind, index: usize, string: &NavString) -> NavString {
    let mut string = *string;
    if kind.words[index].form == Form::Signed {
        string.set(kind.words[index].top_bit(), true);
    }
    for bit in kind.reserved_bits() {
        string.set(bit, true);
    }
    encode(&string)
}

#[test]
fn one_flip_changes_nothing_that_is_read() {
    let mut random = SplitMix64::new(4);
    for kind in KINDS {
        let string = random.string_of(kind);
        for bit in (1..=85).filter(|&bit| bit != 8) {
            assert_eq!(
                read_string(kind, &string.flipped(&[bit])),
                read_string(kind, &string)
            );
        }
        assert_eq!(
            read_string(kind, &string.flipped(&[8])),
            Err(Refusal::Damaged(Damage::WholeAlone))
        );
    }
}

#[test]
fn every_two_flips_are_32() {
    let string = SplitMix64::new(9).string_of(&STRING_5);
    let expected = Err(Refusal::Damaged(Damage::WholeMissing));
    for high in 1..=85 {
        for low in 1..high {
            let answer = read_string(&STRING_5, &string.flipped(&[high, low]));
            assert_eq!(answer, expected, "bits {high}, {low}");
        }
    }
}

/// Of two flips and more, every kind with each cause.
#[test]
fn the_reader_says_what_the_check_says_of_damage() {
    let mut random = SplitMix64::new(10);
    for kind in KINDS {
        let string = random.string_of(kind);
        for (number, flips) in FLIPS_THAT_DAMAGE {
            let answer = read_string(kind, &string.flipped(flips));
            assert_eq!(answer.map_err(Refusal::number), Err(number));
        }
        for round in 0..200 {
            let flipped = string.flipped(&random.bit_numbers(2 + round % 6));
            if let Err(Refusal::Damaged(damage)) = check(&flipped) {
                let answer = read_string(kind, &flipped);
                assert_eq!(answer, Err(Refusal::Damaged(damage)));
            }
        }
    }
}

#[test]
fn the_reader_refuses_in_the_order_2_31_to_33_4_5_11_10() {
    // tb is 0, and each string has one wrong less than the one before.
    let mut idle = NavString::zero();
    idle.set(IDLE_BIT, true);
    let idle = encode(&idle);
    let number = NavString::zero();
    let place = with_m(&number, 3);
    for (cause, flips) in FLIPS_THAT_DAMAGE {
        let damaged = idle.flipped(flips);
        let mut misshapen = damaged.to_bytes();
        misshapen[10] |= 1;
        assert_eq!(read(&STRING_2, &misshapen), Err(Refusal::Shape));
        let answer = read_string(&STRING_2, &damaged);
        assert_eq!(answer.map_err(Refusal::number), Err(cause));
    }
    assert_eq!(read_string(&STRING_2, &idle), Err(Refusal::Idle));
    assert_eq!(read_string(&STRING_2, &number), Err(Refusal::Number));
    assert_eq!(read_string(&STRING_2, &place), Err(Refusal::Place));
    assert_eq!(read_string(&STRING_2, &with_m(&number, 2)), range(76));
}

#[test]
fn the_encoder_refuses_place_before_range() {
    assert_eq!(write(&STRING_2, 1, &[0; 6]), Err(Refusal::Place));
    assert_eq!(write(&STRING_2, 2, &[0; 6]), range(76));
}

#[test]
fn each_kind_takes_its_own_m() {
    let mut random = SplitMix64::new(5);
    for kind in KINDS {
        let (string, values) = (random.string_of(kind), random.legal_values(kind));
        for m in 1..=15 {
            let own = kind.strings.contains(&m);
            let answer = read_string(kind, &with_m(&string, m));
            assert_eq!(answer.is_ok(), own, "{} {m}", kind.name);
            assert_eq!(write(kind, m, &values).is_ok(), own, "{} {m}", kind.name);
        }
        assert_eq!(read_string(kind, &with_m(&string, 0)), Err(Refusal::Number));
        for m in [0, 16, 17, 255] {
            assert_eq!(write(kind, m, &values), Err(Refusal::Place));
        }
    }
}

#[test]
fn kinds_have_the_papers_string_numbers() {
    let strings = KINDS.map(|kind| kind.strings);
    let even = &[6, 8, 10, 12, 14][..];
    let odd = &[7, 9, 11, 13, 15][..];
    assert_eq!(
        strings,
        [&[1][..], &[2], &[3], &[4], &[5], even, odd, &[14]]
    );
}

/// A flip in m is repaired before m is looked at.
#[test]
fn m_is_taken_after_the_repair() {
    let string = SplitMix64::new(6).string_of(&STRING_5);
    for bit in 81..=84 {
        let answer = read_string(&STRING_5, &string.flipped(&[bit]));
        assert_eq!(answer.map(|(m, _)| m), Ok(5));
    }
}

#[test]
fn range_names_the_highest_word_that_fails() {
    let mut values = vec![4, 24 * 128, 1 << 23, 16, 1 << 26];
    for (index, place) in [78, 76, 64, 40, 35].into_iter().enumerate() {
        assert_eq!(write(&STRING_1, 1, &values), range(place));
        values[index] = 0;
    }
    assert_eq!(write(&STRING_1, 1, &values), Ok(a()));
}

#[test]
fn range_of_read_words_names_the_top_bit() {
    for (kind, m, place) in [(&STRING_2, 2, 76), (&STRING_5, 5, 80), (&EVEN, 6, 77)] {
        let zero_data = with_m(&NavString::zero(), m);
        assert_eq!(read_string(kind, &zero_data), range(place));
    }
    for code in [14, 24] {
        let string = with_code(&with_m(&NavString::zero(), 7), &H, code);
        assert_eq!(read_string(&ODD, &string), range(14));
    }
}

#[test]
fn string_14_reads_both_as_even_and_as_that_of_frame_5() {
    let string = with_m(&SplitMix64::new(7).string_of(&EVEN), 14);
    assert!(read_string(&EVEN, &string).is_ok());
    assert!(read_string(&FRAME_5_STRING_14, &string).is_ok());
}

#[test]
fn all_four_kp_codes_are_legal() {
    for kp in 0..=3 {
        assert!(write(&FRAME_5_STRING_14, 14, &[0, 0, kp]).is_ok());
    }
    assert_eq!(write(&FRAME_5_STRING_14, 14, &[0, 0, 4]), range(59));
}
