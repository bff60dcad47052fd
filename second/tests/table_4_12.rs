//! The bits 9 to 80 that are in no word of a kind are those that Table 4.12 lists
//! as reserved, and no others.

use second::words::kinds::{
    Kind, EVEN, FRAME_5_STRING_14, ODD, STRING_1, STRING_2, STRING_3, STRING_4, STRING_5,
};

/// The kind, its bits and their count, as Table 4.12 prints them. Its strings
/// count through the superframe: string 74 is string 14 of frame 5.
fn table_4_12() -> [(&'static Kind, Vec<usize>, usize); 6] {
    [
        (&STRING_1, vec![79, 80], 2),
        (&STRING_2, (65..=69).collect(), 5),
        (&STRING_3, vec![68], 1),
        (
            &STRING_4,
            [27, 28, 29].into_iter().chain(35..=48).collect(),
            17,
        ),
        (&STRING_5, vec![37], 1),
        (&FRAME_5_STRING_14, (9..=57).collect(), 49),
    ]
}

fn reserved(kind: &Kind) -> Vec<usize> {
    let mut bits: Vec<usize> = kind.reserved_bits().collect();
    bits.sort();
    bits
}

#[test]
fn reserved_bits_are_those_of_the_table() {
    for (kind, bits, count) in table_4_12() {
        assert_eq!(reserved(kind), bits, "{}", kind.name);
        assert_eq!(bits.len(), count, "{}", kind.name);
    }
}

#[test]
fn almanac_strings_have_no_reserved_bits() {
    assert_eq!(reserved(&EVEN), []);
    assert_eq!(reserved(&ODD), []);
}

/// String 75 has bits 10 to 80 reserved, 71 of them: all but l, which an odd
/// string has in bit 9.
#[test]
fn string_75_carries_the_l_of_an_odd_string_alone() {
    let l = ODD.words.last().unwrap();
    assert_eq!((l.name, l.bits), ("l", (9, 9)));
    assert_eq!((10..=80).count(), 71);
}
