//! Single words: sign and magnitude, ranges, Table 4.10.

use second::refusal::Refusal;
use second::string::NavString;
use second::words::kinds::{Kind, EVEN, KINDS, ODD, STRING_1, STRING_2, STRING_4, STRING_5};
use second::words::word::{time_of_day, Form, Word};

fn named(kind: &'static Kind, name: &str) -> &'static Word {
    let word = kind.words.iter().find(|word| word.name == name);
    word.unwrap_or_else(|| panic!("no {name} in {}", kind.name))
}

fn read(word: &Word, code: u128) -> Result<i64, Refusal> {
    let mut string = NavString::zero();
    string.set_number(word.bits, code);
    word.read(&string)
}

/// The code that the encoder writes, and nothing outside the word.
fn write(word: &Word, value: i64) -> Result<u128, Refusal> {
    let mut string = NavString::zero();
    word.write(&mut string, value)?;
    let code = string.number(word.bits);
    string.set_number(word.bits, 0);
    assert_eq!(string, NavString::zero());
    Ok(code)
}

fn range(place: usize) -> Refusal {
    Refusal::Range { place }
}

/// Reads as itself within the limits, is refused beyond them as far as bits go.
fn assert_range(word: &Word, least: u128, greatest: u128) {
    for code in 0..1 << word.width() {
        let expected = match (least..=greatest).contains(&code) {
            true => Ok(code as i64),
            false => Err(range(word.top_bit())),
        };
        assert_eq!(read(word, code), expected, "{} {code}", word.name);
        assert_eq!(write(word, code as i64).is_ok(), expected.is_ok());
    }
}

#[test]
fn five_signed_bits() {
    let word = named(&STRING_4, "delta tau");
    assert_eq!(read(word, 0b10000), Ok(0));
    assert_eq!(read(word, 0b10001), Ok(-1));
    assert_eq!(read(word, 0b11111), Ok(-15));
    assert_eq!(read(word, 0b01111), Ok(15));
}

#[test]
fn signed_words_run_from_least_to_greatest() {
    for kind in KINDS {
        for word in kind.signed_words() {
            let end = (1 << (word.width() - 1)) - 1;
            for value in [-end, 1 - end, -1, 0, 1, end - 1, end] {
                assert_eq!(read(word, write(word, value).unwrap()), Ok(value));
            }
            for value in [-end - 1, end + 1] {
                assert_eq!(write(word, value), Err(range(word.top_bit())));
            }
        }
    }
}

#[test]
fn minus_zero_reads_as_zero_and_is_never_written() {
    for kind in KINDS {
        for word in kind.signed_words() {
            assert_eq!(read(word, 1 << (word.width() - 1)), Ok(0));
            assert_eq!(write(word, 0), Ok(0));
        }
    }
}

#[test]
fn tau_c_has_no_value_below_its_least() {
    let word = named(&STRING_5, "tau c");
    assert_eq!(write(word, -2147483648), Err(range(69)));
    assert_eq!(write(word, -2147483647), Ok(0xFFFF_FFFF));
    assert_eq!(write(word, 2147483647), Ok(0x7FFF_FFFF));
    assert_eq!(write(word, 2147483648), Err(range(69)));
}

#[test]
fn h_follows_table_4_10() {
    let word = named(&ODD, "H");
    for (carrier, code) in [
        (-1, 31),
        (-2, 30),
        (-3, 29),
        (-4, 28),
        (-5, 27),
        (-6, 26),
        (-7, 25),
    ] {
        assert_eq!(read(word, code), Ok(carrier));
        assert_eq!(write(word, carrier), Ok(code));
    }
    for code in 0..=13 {
        assert_eq!(read(word, code), Ok(code as i64));
        assert_eq!(write(word, code as i64), Ok(code));
    }
    for code in 14..=24 {
        assert_eq!(read(word, code), Err(range(14)), "{code}");
    }
}

#[test]
fn h_is_written_by_its_meaning_only() {
    let word = named(&ODD, "H");
    for value in (-40..=-8).chain(14..=40) {
        assert_eq!(write(word, value), Err(range(14)), "{value}");
    }
}

#[test]
fn tk_of_13_37_30() {
    let word = named(&STRING_1, "tk");
    assert_eq!(time_of_day(13, 37, 1), 0b011011001011);
    assert_eq!(read(word, 0b011011001011), Ok(time_of_day(13, 37, 1)));
    assert_eq!(write(word, time_of_day(13, 37, 1)), Ok(0b011011001011));
}

#[test]
fn tk_has_24_hours_of_60_minutes() {
    let word = named(&STRING_1, "tk");
    for hour in 0..32 {
        for minute in 0..64 {
            for half in 0..2 {
                let time = time_of_day(hour, minute, half);
                let expected = match hour < 24 && minute < 60 {
                    true => Ok(time),
                    false => Err(range(76)),
                };
                assert_eq!(read(word, time as u128), expected, "{hour}:{minute}");
                assert_eq!(write(word, time).is_ok(), expected.is_ok());
            }
        }
    }
    for time in [-1, -128, time_of_day(32, 0, 0), time_of_day(33, 1, 0)] {
        assert_eq!(write(word, time), Err(range(76)), "{time}");
    }
}

#[test]
fn tb_runs_from_15_to_1425_minutes() {
    let minutes = 15;
    assert_range(named(&STRING_2, "tb"), 15 / minutes, 1425 / minutes);
}

#[test]
fn almanac_days_and_slots_have_their_ranges() {
    assert_range(named(&STRING_5, "NA"), 1, 1461);
    assert_range(named(&EVEN, "nA"), 1, 24);
}

#[test]
fn plain_words_take_all_that_their_bits_hold() {
    for kind in KINDS {
        for word in kind.words.iter().filter(|word| word.form == Form::Plain) {
            let end = 1 << word.width();
            for value in [0, 1, end / 2, end - 1] {
                assert_eq!(write(word, value), Ok(value as u128), "{}", word.name);
                assert_eq!(read(word, value as u128), Ok(value), "{}", word.name);
            }
            for value in [-1, end, end + 1] {
                assert_eq!(write(word, value), Err(range(word.top_bit())));
            }
        }
    }
}

#[test]
fn only_five_words_have_a_range() {
    let with_range = KINDS.iter().flat_map(|kind| kind.words_with_range());
    let names: Vec<&str> = with_range.map(|word| word.name).collect();
    assert_eq!(names, ["tk", "tb", "NA", "nA", "H"]);
}
