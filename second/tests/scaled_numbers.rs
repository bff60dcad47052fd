//! Floats and decimal fractions of scaled words: against the machine's own floats, and what
//! their bits must say.

use second::random::SplitMix64;
use second::scaled::Scaled;

const UNITS: std::ops::RangeInclusive<u32> = 5..=40;
const WIDTHS: std::ops::RangeInclusive<u32> = 2..=32;

fn scaled(raw: i64, binary_places: u32) -> Scaled {
    Scaled { raw, binary_places }
}

/// The raw numbers of a signed word of this width: the ends, single bits, and some more.
fn raw_numbers(random: &mut SplitMix64, width: u32) -> Vec<i64> {
    let end = (1_i64 << (width - 1)) - 1;
    let mut numbers = vec![0, 1, end - 1, end, end / 2, end / 3];
    numbers.extend((0..width - 1).map(|bit| 1 << bit));
    numbers.extend((0..20).map(|_| random.below(end as usize + 1) as i64));
    let minus: Vec<i64> = numbers.iter().map(|number| -number).collect();
    numbers.extend(minus);
    numbers
}

fn for_all_words(mut test: impl FnMut(i64, u32)) {
    let mut random = SplitMix64::new(11);
    for width in WIDTHS {
        for binary_places in UNITS {
            for raw in raw_numbers(&mut random, width) {
                test(raw, binary_places);
            }
        }
    }
}

#[test]
fn floats_are_those_of_the_machine() {
    for_all_words(|raw, binary_places| {
        let machine = raw as f64 / 2_f64.powi(binary_places as i32);
        let bits = scaled(raw, binary_places).float_bits();
        assert_eq!(bits, machine.to_bits(), "{raw} x 2^-{binary_places}");
    });
}

/// Sign, exponent and fraction give the raw number again, without a bit lost.
#[test]
fn bits_of_a_float_say_the_raw_number() {
    for_all_words(|raw, binary_places| {
        let bits = scaled(raw, binary_places).float_bits();
        if raw == 0 {
            assert_eq!(bits, 0);
            return;
        }
        let exponent = i64::from((bits >> 52) as u32 & 0x7FF) - 1023;
        let significand = i128::from(bits & ((1 << 52) - 1) | 1 << 52);
        let down = 52 - exponent - i64::from(binary_places);
        assert_eq!(significand % (1 << down), 0);
        let magnitude = significand >> down;
        let sign = if bits >> 63 == 1 { -1 } else { 1 };
        assert_eq!(sign * magnitude, i128::from(raw));
    });
}

#[test]
fn decimals_are_those_of_the_machine() {
    for_all_words(|raw, binary_places| {
        let machine = raw as f64 / 2_f64.powi(binary_places as i32);
        let places = binary_places as usize;
        let written = scaled(raw, binary_places).to_string();
        assert_eq!(written, format!("{machine:.places$}"));
    });
}

#[test]
fn x_at_its_greatest_and_its_least() {
    let greatest = scaled(67_108_863, 11);
    assert_eq!(greatest.float_bits(), 0x40DF_FFFF_F800_0000);
    assert_eq!(greatest.to_string(), "32767.99951171875");
    let least = scaled(-67_108_863, 11);
    assert_eq!(least.float_bits(), 0xC0DF_FFFF_F800_0000);
    assert_eq!(least.to_string(), "-32767.99951171875");
}

#[test]
fn one_and_its_neighbours_in_powers_of_two() {
    assert_eq!(scaled(1 << 11, 11).float_bits(), 0x3FF0_0000_0000_0000);
    assert_eq!(scaled(-1 << 11, 11).float_bits(), 0xBFF0_0000_0000_0000);
    assert_eq!(scaled(1 << 12, 11).float_bits(), 0x4000_0000_0000_0000);
    assert_eq!(scaled(3 << 11, 11).float_bits(), 0x4008_0000_0000_0000);
    assert_eq!(scaled(1, 40).float_bits(), 0x3D70_0000_0000_0000);
}

#[test]
fn zero_has_no_sign() {
    for binary_places in UNITS {
        let zero = scaled(0, binary_places);
        assert_eq!(zero.float_bits(), 0);
        let zeros = "0".repeat(binary_places as usize);
        assert_eq!(zero.to_string(), format!("0.{zeros}"));
    }
}

#[test]
fn decimals_of_small_numbers() {
    assert_eq!(scaled(1, 5).to_string(), "0.03125");
    assert_eq!(scaled(-1, 9).to_string(), "-0.001953125");
    assert_eq!(scaled(-33, 5).to_string(), "-1.03125");
    let tau_c = scaled(-2_147_483_647, 31);
    assert_eq!(tau_c.to_string(), "-0.9999999995343387126922607421875");
}
