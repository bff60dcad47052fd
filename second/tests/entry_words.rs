//! `trial`'s request 23: the words of an entry.

use second::alter::{with_bit_inverted, with_m, with_number};
use second::known::received_frame;
use second::relative::{from_relative, to_relative};
use second::request::{
    append, whole_requests, Piece, ENTRY, ENTRY_WORDS, FRESH, OFFER, READ, RESET,
};
use second::station::book::Entry;
use second::string::NavString;
use second::{make, trial};

/// The paper's table: the bits of the even string's seven words, then of the odd
/// string's five.
const BITS_OF_WORDS: [(usize, usize); 12] = [
    (80, 80),
    (79, 78),
    (77, 73),
    (72, 63),
    (62, 42),
    (41, 24),
    (23, 9),
    (80, 65),
    (64, 44),
    (43, 22),
    (21, 15),
    (14, 10),
];
const WORDS_OF_EVEN: usize = 7;

/// Places in the line: nA, the words with a sign, H.
const SLOT: usize = 2;
const SIGNED: [usize; 6] = [3, 4, 5, 7, 9, 10];
const H: usize = 11;

/// The least and the greatest value of each word; nA is the slot.
const LIMITS: [(i64, i64); 12] = [
    (0, 1),
    (0, 3),
    (1, 24),
    (-511, 511),
    (-1_048_575, 1_048_575),
    (-131_071, 131_071),
    (0, 32_767),
    (-32_767, 32_767),
    (0, 2_097_151),
    (-2_097_151, 2_097_151),
    (-63, 63),
    (-7, 13),
];

/// The two halves with these bits in their words, as strings 6 and 7.
fn pair_of(codes: [u128; 12]) -> [NavString; 2] {
    let mut pair = [6, 7].map(|m| with_m(&NavString::zero(), m));
    for (index, code) in codes.into_iter().enumerate() {
        let half = &mut pair[usize::from(index >= WORDS_OF_EVEN)];
        *half = with_number(half, BITS_OF_WORDS[index], code);
    }
    pair
}

/// Day 1 of period 1.
fn string_5() -> NavString {
    let string = with_m(&NavString::zero(), 5);
    let string = with_number(&string, (80, 70), 1);
    with_number(&string, (36, 32), 1)
}

fn answers(requests: &[(u8, Vec<u8>)]) -> Vec<String> {
    let mut input = Vec::new();
    for (op, payload) in requests {
        append(&mut input, *op, payload);
    }
    let lines = trial::answer_input(&input);
    lines.lines().map(String::from).collect()
}

/// Offers in the frame that starts at 100, on channel 3.
fn offers(strings: &[NavString]) -> Vec<(u8, Vec<u8>)> {
    let offer = |string: &NavString| {
        let symbols = to_relative(string).unwrap().to_bytes();
        let epoch = 99 + string.m() as u8;
        (OFFER, [&[3, 0, 0, 0, epoch], &symbols[..]].concat())
    };
    strings.iter().map(offer).collect()
}

/// The line for this slot once the strings were offered.
fn line_after(strings: &[NavString], slot: u8) -> String {
    let mut requests = offers(strings);
    requests.push((ENTRY_WORDS, vec![slot]));
    answers(&requests).pop().unwrap()
}

fn line_of(codes: [u128; 12]) -> String {
    let [even, odd] = pair_of(codes);
    line_after(&[string_5(), even, odd], codes[SLOT] as u8)
}

fn words_in(line: &str) -> Option<Vec<i64>> {
    let words = line.strip_prefix("ok ")?.split(' ');
    Some(words.map(|word| word.parse().unwrap()).collect())
}

#[test]
fn twelve_words_in_the_papers_order() {
    assert_eq!(
        line_of([1, 2, 3, 4, 5, 6, 7, 8, 9, 10, 11, 12]),
        "ok 1 2 3 4 5 6 7 8 9 10 11 12"
    );
}

/// The sign bit, and 20 and more below it.
#[test]
fn signed_words_are_sign_and_magnitude() {
    let mut codes = [0, 1, 5, 0, 0, 0, 7, 0, 9, 0, 0, 13];
    for index in SIGNED {
        let (top, low) = BITS_OF_WORDS[index];
        codes[index] = (1 << (top - low)) + 20 + index as u128;
    }
    assert_eq!(line_of(codes), "ok 0 1 5 -23 -24 -25 7 -27 9 -29 -30 13");
}

#[test]
fn minus_zero_prints_as_zero() {
    let mut codes = [0; 12];
    codes[SLOT] = 24;
    for index in SIGNED {
        let (top, low) = BITS_OF_WORDS[index];
        codes[index] = 1 << (top - low);
    }
    assert_eq!(line_of(codes), "ok 0 0 24 0 0 0 0 0 0 0 0 0");
}

#[test]
fn words_at_their_ends() {
    let all_ones = BITS_OF_WORDS.map(|(top, low)| (1 << (top - low + 1)) - 1);
    let mut codes = all_ones;
    (codes[SLOT], codes[H]) = (24, 25);
    assert_eq!(
        line_of(codes),
        "ok 1 3 24 -511 -1048575 -131071 32767 -32767 2097151 -2097151 -63 -7"
    );
    let mut codes = [0; 12];
    (codes[SLOT], codes[H]) = (1, 13);
    for index in SIGNED {
        codes[index] = all_ones[index] / 2;
    }
    assert_eq!(
        line_of(codes),
        "ok 0 0 1 511 1048575 131071 0 32767 0 2097151 63 13"
    );
}

#[test]
fn h_is_its_meaning() {
    for (code, meaning) in (0..=13).zip(0..).chain((25..=31).zip(-7..)) {
        let line = line_of([0, 0, 1, 0, 0, 0, 0, 0, 0, 0, 0, code]);
        assert_eq!(line, format!("ok 0 0 1 0 0 0 0 0 0 0 0 {meaning}"));
    }
}

/// By its weight there; a sign alone is minus zero.
#[test]
fn every_bit_moves_its_own_word() {
    for (index, (top, low)) in BITS_OF_WORDS.into_iter().enumerate() {
        for bit in low..=top {
            let mut pair = [NavString::zero(); 2];
            pair[usize::from(index >= WORDS_OF_EVEN)].flip(bit);
            let mut expected = vec![0; 12];
            if !(SIGNED.contains(&index) && bit == top) {
                expected[index] = 1 << (bit - low);
            }
            let words = Entry::of(1, &pair[0], &pair[1]).words();
            assert_eq!(words, expected, "word {index}, bit {bit}");
        }
    }
}

#[test]
fn l_is_in_no_word() {
    let codes = [1, 2, 3, 4, 5, 6, 7, 8, 9, 10, 11, 12];
    let [even, odd] = pair_of(codes);
    let with_l = with_bit_inverted(&odd, 9);
    assert_eq!(line_after(&[string_5(), even, with_l], 3), line_of(codes));
}

#[test]
fn words_of_the_received_frame() {
    let frame = received_frame();
    assert_eq!(
        line_after(&frame, 16),
        "ok 1 1 16 -8 183842 10918 2686 3910 1002223 -1359852 -18 -1"
    );
}

/// What the reader makes of the two strings, without m and l.
#[test]
fn words_are_those_that_the_reader_reads() {
    let frame = received_frame();
    for (slot, pair) in (16..).zip(frame[5..].chunks(2)) {
        let read = |kind: u8, string: &NavString| {
            let payload = [&[kind], &string.to_bytes()[..]].concat();
            let line = answers(&[(READ, payload)]).pop().unwrap();
            words_in(&line).unwrap()[1..].to_vec()
        };
        let mut expected = read(6, &pair[0]);
        expected.extend(&read(7, &pair[1])[..5]);
        assert_eq!(words_in(&line_after(&frame, slot)), Some(expected));
    }
}

#[test]
fn refusals_are_those_of_the_entry() {
    let mut requests = offers(&received_frame());
    for op in [ENTRY, ENTRY_WORDS] {
        requests.extend([0, 25, 128, 255, 1, 15, 21, 24].map(|slot| (op, vec![slot])));
    }
    let lines = answers(&requests);
    let expected = [
        "no 14", "no 14", "no 14", "no 14", "no 13", "no 13", "no 13", "no 13",
    ];
    assert_eq!(lines[15..23], expected);
    assert_eq!(lines[23..], expected);
}

#[test]
fn another_length_is_bad() {
    for payload in [&[][..], &[1, 0], &[0, 16], &[16; 3], &[16; 300]] {
        let mut requests = offers(&received_frame());
        requests.push((ENTRY_WORDS, payload.to_vec()));
        assert_eq!(answers(&requests)[15], "bad 23");
    }
}

#[test]
fn the_words_stay_after_a_reset_and_go_with_the_station() {
    let mut requests = offers(&received_frame());
    for (op, payload) in [(RESET, vec![3]), (FRESH, vec![])] {
        requests.push((op, payload));
        requests.push((ENTRY_WORDS, vec![20]));
    }
    let lines = answers(&requests);
    assert_eq!(lines[16], line_after(&received_frame(), 20));
    assert_eq!(lines[18], "no 13");
}

/// The made input's requests for words, by their payloads, and their lines.
fn made_requests() -> Vec<(Vec<u8>, String)> {
    let input = make::trial_input(20260);
    let for_words = |(piece, line): (Piece, String)| match piece {
        Piece::Whole(request) if request.op == ENTRY_WORDS => {
            Some((request.payload.to_vec(), line))
        }
        _ => None,
    };
    trial::answers(&input).filter_map(for_words).collect()
}

fn made_words() -> Vec<Vec<i64>> {
    let requests = made_requests();
    let words = requests.iter().filter_map(|(_, line)| words_in(line));
    words.collect()
}

#[test]
fn the_made_input_asks_for_every_refusal() {
    let requests = made_requests();
    for (payload, line) in [
        (&[0][..], "no 14"),
        (&[25], "no 14"),
        (&[255], "no 14"),
        (&[1], "no 13"),
        (&[24], "no 13"),
        (&[], "bad 23"),
        (&[1, 0], "bad 23"),
    ] {
        let wanted = (payload.to_vec(), String::from(line));
        assert!(requests.contains(&wanted), "{wanted:?}");
    }
}

/// In each slot there is an entry whose twelve words have twelve values.
#[test]
fn the_made_input_shows_an_exchange_of_any_two_words() {
    let entries = made_words();
    for slot in 1..=24 {
        let apart = |words: &Vec<i64>| {
            let mut values = words.clone();
            values.sort();
            values.dedup();
            words[SLOT] == slot && values.len() == 12
        };
        assert!(entries.iter().any(apart), "slot {slot}");
    }
}

#[test]
fn the_made_input_has_the_ends_of_every_word() {
    let entries = made_words();
    for (index, (least, greatest)) in LIMITS.into_iter().enumerate() {
        let has = |value| entries.iter().any(|words| words[index] == value);
        assert!(has(least) && has(greatest), "word {index}");
    }
    for index in SIGNED {
        let has = |value| entries.iter().any(|words| words[index] == value);
        assert!(has(-1) && has(0) && has(1), "word {index}");
    }
    for carrier in -7..=13 {
        assert!(
            entries.iter().any(|words| words[H] == carrier),
            "H {carrier}"
        );
    }
}

/// Among the almanac strings that are offered from the first request for words on.
#[test]
fn the_made_input_has_minus_zero_in_every_signed_word() {
    let input = make::trial_input(20260);
    let strings: Vec<NavString> = whole_requests(&input)
        .skip_while(|request| request.op != ENTRY_WORDS)
        .filter(|request| request.op == OFFER)
        .filter_map(|request| NavString::from_bytes(&request.payload[5..]).ok())
        .map(|symbols| from_relative(&symbols).0)
        .filter(|string| (6..=13).contains(&string.m()))
        .collect();
    for index in SIGNED {
        let (top, low) = BITS_OF_WORDS[index];
        let half = usize::from(index >= WORDS_OF_EVEN);
        let is_minus_zero = |string: &NavString| {
            string.m() % 2 == half && string.number((top, low)) == 1 << (top - low)
        };
        assert!(strings.iter().any(is_minus_zero), "word {index}");
    }
}
