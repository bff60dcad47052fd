//! Numbers of navigation records: against the machine's own decimals, and digit by digit.

use std::ops::RangeInclusive;

use second::navigation::number::D19;
use second::random::SplitMix64;
use second::scaled::Scaled;

/// Whole numbers, and the units of the words.
const UNITS: [u32; 5] = [0, 11, 20, 30, 40];
const WIDTHS: RangeInclusive<u32> = 2..=32;

fn written(raw: i64, binary_places: u32) -> String {
    D19(Scaled { raw, binary_places }).to_string()
}

/// The ends, single bits, and some more, with either sign.
fn raw_numbers(random: &mut SplitMix64, width: u32) -> Vec<i64> {
    let end = (1_i64 << (width - 1)) - 1;
    let mut numbers = vec![0, 1, end - 1, end, end / 2, end / 3];
    numbers.extend((0..width - 1).map(|bit| 1 << bit));
    numbers.extend((0..40).map(|_| random.below(end as usize + 1) as i64));
    let minus: Vec<i64> = numbers.iter().map(|number| -number).collect();
    numbers.extend(minus);
    numbers
}

fn for_all_words(mut test: impl FnMut(i64, u32)) {
    let mut random = SplitMix64::new(18);
    for width in WIDTHS {
        for binary_places in UNITS {
            for raw in raw_numbers(&mut random, width) {
                test(raw, binary_places);
            }
        }
    }
}

/// The same by long division, one digit after another: the number is raw / 2^places.
fn by_long_division(raw: i64, binary_places: u32) -> String {
    let (mut above, mut below) = (u128::from(raw.unsigned_abs()), 1_u128 << binary_places);
    let mut exponent = 0;
    while above >= 10 * below {
        below *= 10;
        exponent += 1;
    }
    while above != 0 && above < below {
        above *= 10;
        exponent -= 1;
    }
    let mut digits = Vec::new();
    for _ in 0..13 {
        digits.push((above / below) as u8);
        above = above % below * 10;
    }
    // What is left is ten times the rest: half a unit is five times the divisor.
    let is_odd = digits[12] % 2 == 1;
    if above > 5 * below || (above == 5 * below && is_odd) {
        let mut place = 12;
        while digits[place] == 9 {
            digits[place] = 0;
            place -= 1;
        }
        digits[place] += 1;
    }
    let digits: String = digits.iter().map(u8::to_string).collect();
    let sign = if raw < 0 { '-' } else { ' ' };
    let sign_of_exponent = if exponent < 0 { '-' } else { '+' };
    let (first, others) = digits.split_at(1);
    format!(
        "{sign}{first}.{others}D{sign_of_exponent}{:02}",
        i32::abs(exponent)
    )
}

#[test]
fn numbers_are_those_of_long_division() {
    for_all_words(|raw, binary_places| {
        let text = written(raw, binary_places);
        assert_eq!(text, by_long_division(raw, binary_places));
        assert_eq!(text.len(), 19);
    });
}

/// The machine writes `1.635253429413e-4`. It has the exact number, too.
#[test]
fn numbers_are_those_of_the_machine() {
    for_all_words(|raw, binary_places| {
        let machine = raw as f64 / 2_f64.powi(binary_places as i32);
        let machine = format!("{machine:.12e}");
        let (digits, exponent) = machine.split_once('e').unwrap();
        let exponent: i32 = exponent.parse().unwrap();
        let text = written(raw, binary_places);
        assert_eq!(text.trim_start(), format!("{digits}D{exponent:+03}"));
    });
}

#[test]
fn known_numbers() {
    for (raw, binary_places, text) in [
        (175_584, 30, " 1.635253429413D-04"),
        (-175_584, 30, "-1.635253429413D-04"),
        (1, 40, " 9.094947017729D-13"),
        (-1023, 40, "-9.304130799137D-10"),
        (67_108_863, 11, " 3.276799951172D+04"),
        (-8_388_607, 20, "-7.999999046326D+00"),
        (15, 30, " 1.396983861923D-08"),
        (86_370, 0, " 8.637000000000D+04"),
        (-7, 0, "-7.000000000000D+00"),
        (10, 0, " 1.000000000000D+01"),
    ] {
        assert_eq!(written(raw, binary_places), text);
    }
}

#[test]
fn zero_has_no_minus_and_no_exponent() {
    for binary_places in 0..=40 {
        assert_eq!(written(0, binary_places), " 0.000000000000D+00");
    }
}

/// 2^-20 is 9.5367431640625E-07, three times it is 2.86102294921875E-06. x of 10,000 km and
/// more has nine decimals where its raw number is four times an odd one.
#[test]
fn ties_go_to_the_even_digit() {
    for (raw, binary_places, text) in [
        (1 << 10, 30, " 9.536743164062D-07"),
        (3 << 11, 30, " 5.722045898438D-06"),
        (4 * 5_120_001, 11, " 1.000000195312D+04"),
        (4 * 5_120_003, 11, " 1.000000585938D+04"),
        (-4 * 5_120_003, 11, "-1.000000585938D+04"),
        (8193 << 7, 20, " 1.000122070312D+00"),
        (8195 << 7, 20, " 1.000366210938D+00"),
    ] {
        assert_eq!(written(raw, binary_places), text);
    }
}

/// No word of a record has so many nines.
#[test]
fn nines_that_are_rounded_up_go_to_the_next_power_of_ten() {
    assert_eq!(written(99_999_999_999_995, 0), " 1.000000000000D+14");
    assert_eq!(written(99_999_999_999_994, 0), " 9.999999999999D+13");
    assert_eq!(written(-99_999_999_999_999, 0), "-1.000000000000D+14");
}
