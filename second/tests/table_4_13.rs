//! Table 4.13's printed lists against the paper's position rule.

use second::hamming::{data_bits, Sums, SUM_NUMBERS};
use second::string::{NavString, BITS};

/// "Bit i has a position": the paper's rule, check bits included.
fn position(bit: usize) -> usize {
    match bit {
        1..=7 => 1 << (bit - 1),
        8 => 0,
        9 => 3,
        10..=12 => bit - 5,
        13..=19 => bit - 4,
        20..=34 => bit - 3,
        35..=65 => bit - 2,
        66..=85 => bit - 1,
        _ => panic!("no bit {bit} in a string"),
    }
}

#[test]
fn lists_hold_the_data_bits_whose_position_has_the_weight() {
    for k in SUM_NUMBERS {
        let by_rule: Vec<usize> = (9..=BITS)
            .filter(|&bit| position(bit) & (1 << (k - 1)) != 0)
            .collect();
        assert_eq!(data_bits(k), by_rule, "sum C{k}");
    }
}

#[test]
fn s_of_one_set_bit_is_its_position() {
    for bit in 1..=BITS {
        let sums = Sums::of(&NavString::zero().flipped(&[bit]));
        assert_eq!(sums.s(), position(bit), "bit {bit}");
        assert!(sums.whole);
    }
}

#[test]
fn positions_all_differ() {
    let mut positions: Vec<usize> = (1..=BITS).map(position).collect();
    positions.sort();
    assert_eq!(positions, (0..BITS).collect::<Vec<usize>>());
}
