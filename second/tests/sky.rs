//! A sky: its 322 words, the strings of its superframe, their line symbols, and what is refused.

use second::known::a;
use second::make;
use second::refusal::Refusal;
use second::request::{append, values_from_bytes, values_to_bytes, TO_RELATIVE, WRITE};
use second::sky::line::symbols_of;
use second::sky::{answer_input, Sky};
use second::string::NavString;
use second::trial;

/// Where things stand among the 322 words.
const STRING_5: usize = 26;
const N4: usize = 28;
const L: usize = 30;
const L_OF_STRING_3: usize = 14;
const B1: usize = 31;
const ENTRIES: usize = 34;

const TIME_MARK: &str = "111110001101110101000010010110";

fn words_of(seed: u64) -> Vec<i64> {
    values_from_bytes(&make::sky_words(seed))
}

fn sky(words: &[i64]) -> Sky {
    Sky::from_bytes(&values_to_bytes(words)).unwrap()
}

fn with(words: &[i64], index: usize, value: i64) -> Vec<i64> {
    let mut words = words.to_vec();
    words[index] = value;
    words
}

fn slot_word(slot: usize) -> usize {
    ENTRIES + 12 * (slot - 1) + 2
}

/// The number of the kind that request 5 takes, m, and the words: Table 4.1, written out once
/// more.
fn kind_m_and_words(words: &[i64], place: usize) -> (u8, u8, Vec<i64>) {
    let (frame, m) = ((place - 1) / 15 + 1, (place - 1) % 15 + 1);
    let l = words[L];
    let entry = |pair: usize| &words[ENTRIES + 12 * (5 * (frame - 1) + pair)..][..12];
    let (kind, values) = match m {
        1 => (1, words[..5].to_vec()),
        2 => (2, words[5..11].to_vec()),
        3 => (3, words[11..18].to_vec()),
        4 => (4, words[18..26].to_vec()),
        5 => (5, words[26..31].to_vec()),
        14 if frame == 5 => (8, words[31..34].to_vec()),
        15 if frame == 5 => (7, vec![0, 0, 0, 0, 0, l]),
        6 | 8 | 10 | 12 | 14 => (6, entry(m / 2 - 3)[..7].to_vec()),
        _ => (7, [&entry(m / 2 - 3)[7..], &[l]].concat()),
    };
    (kind, m as u8, values)
}

fn answer(op: u8, payload: &[u8]) -> String {
    let mut input = Vec::new();
    append(&mut input, op, payload);
    String::from(trial::answer_input(&input).trim_end())
}

fn bytes_of(line: &str) -> Vec<u8> {
    let hex = line.strip_prefix("ok ").expect("a line of bytes");
    let starts = (0..hex.len()).step_by(2);
    starts
        .map(|at| u8::from_str_radix(&hex[at..at + 2], 16).unwrap())
        .collect()
}

/// The string by requests 5 and 2.
fn relative_form(words: &[i64], place: usize) -> Vec<u8> {
    let (kind, m, values) = kind_m_and_words(words, place);
    let payload = [&[11, kind, m], &values_to_bytes(&values)[..]].concat();
    let string = bytes_of(&answer(WRITE, &payload));
    bytes_of(&answer(TO_RELATIVE, &[&[11], &string[..]].concat()))
}

/// In digits: two for each of the 85 symbols, then the mark.
fn on_the_line(relative: &[u8]) -> String {
    let bits = relative.iter().map(|byte| format!("{byte:08b}"));
    let bits: String = bits.collect();
    let data = bits[..85].replace('0', "a").replace('1', "b");
    data.replace('a', "01").replace('b', "10") + TIME_MARK
}

fn digits(symbols: &[u8]) -> String {
    symbols.iter().map(u8::to_string).collect()
}

#[test]
fn symbols_are_what_requests_5_and_2_write_with_the_meander_and_the_mark() {
    for seed in 0..20 {
        let words = words_of(seed);
        let symbols = sky(&words).symbols().unwrap();
        assert_eq!(symbols.len(), 15_000);
        for (place, string) in (1..).zip(symbols.chunks(200)) {
            let expected = on_the_line(&relative_form(&words, place));
            assert_eq!(digits(string), expected, "seed {seed}, string {place}");
        }
    }
}

#[test]
fn strings_1_to_5_are_alike_in_all_frames() {
    let symbols = sky(&words_of(1)).symbols().unwrap();
    let first = &symbols[..5 * 200];
    for frame in symbols.chunks(15 * 200) {
        assert_eq!(&frame[..5 * 200], first);
    }
}

/// m is 15, and only l, bit 9, may be set beside it.
#[test]
fn the_last_string_is_zero_but_for_m_and_l() {
    for l in [0, 1] {
        let strings = sky(&with(&words_of(2), L, l)).strings().unwrap();
        assert_eq!(strings[74].m(), 15);
        assert_eq!(strings[74].number((80, 9)), l as u128);
    }
}

#[test]
fn every_l_but_that_of_string_3_is_string_5s() {
    for (own, others) in [(0, 0), (0, 1), (1, 0), (1, 1)] {
        let words = with(&with(&words_of(3), L_OF_STRING_3, own), L, others);
        for (place, string) in (1..).zip(sky(&words).strings().unwrap()) {
            match (place - 1) % 15 + 1 {
                3 => assert_eq!(string.bit(65), own == 1),
                5 | 7 | 9 | 11 | 13 | 15 => assert_eq!(string.bit(9), others == 1),
                _ => (),
            }
        }
    }
}

/// "1 + x^3 + x^5", from five ones on. The 31st symbol, which is left out, is 0: the first half
/// of the next string's idle bit.
#[test]
fn the_time_mark_follows_from_its_polynomial() {
    let mut mark = vec![1_u8; 5];
    while mark.len() < 31 {
        mark.push(mark[mark.len() - 3] ^ mark[mark.len() - 5]);
    }
    assert_eq!(digits(&mark[..30]), TIME_MARK);
    let symbols = sky(&words_of(4)).symbols().unwrap();
    for string in symbols.chunks(200) {
        assert_eq!(string[170..], mark[..30]);
        assert_eq!(string[0], mark[30]);
    }
}

/// A, whose relative form is B: `0F FF FF FF FF FF FF FF FF FB 00`.
#[test]
fn a_known_string_on_the_line() {
    let runs = [("01", 4), ("10", 73), ("01", 1), ("10", 2), ("01", 5)];
    let data: String = runs.map(|(halves, count)| halves.repeat(count)).concat();
    assert_eq!(digits(&symbols_of(&a())), data + TIME_MARK);
}

#[test]
fn a_string_of_zeros_is_the_meander_alone() {
    let symbols = digits(&symbols_of(&NavString::zero()));
    assert_eq!(symbols, "01".repeat(85) + TIME_MARK);
}

#[test]
fn only_a_room_of_15_000_bytes_will_do() {
    let good = sky(&words_of(5));
    assert_eq!(good.symbols_in(15_000), good.symbols());
    let words = with(&words_of(5), slot_word(1), 2);
    let wrong = sky(&with(&words, 0, -1));
    for room in [0, 1, 200, 14_999, 15_001, 16_000, 30_000] {
        assert_eq!(good.symbols_in(room), Err(Refusal::Room));
        assert_eq!(wrong.symbols_in(room), Err(Refusal::Room));
    }
    assert_eq!(wrong.symbols_in(15_000), Err(Refusal::Order));
}

#[test]
fn slots_are_1_to_24_in_order() {
    let words = words_of(6);
    for slot in 1..=24 {
        let others = [0, 25, slot as i64 + 1, slot as i64 - 1, slot as i64 + 32];
        for other in others.into_iter().chain([-1, i64::from(i32::MIN)]) {
            let wrong = with(&words, slot_word(slot), other);
            assert_eq!(sky(&wrong).strings(), Err(Refusal::Order));
            for index in [0, N4, B1, 321] {
                let wrong = with(&wrong, index, i64::from(i32::MIN));
                assert_eq!(sky(&wrong).strings(), Err(Refusal::Order));
            }
        }
    }
}

/// By the layout of the words.
fn place_of(index: usize) -> usize {
    match index {
        0..=4 => 1,
        5..=10 => 2,
        11..=17 => 3,
        18..=25 => 4,
        26..=30 => 5,
        31..=33 => 74,
        _ => {
            let (entry, word) = ((index - ENTRIES) / 12, (index - ENTRIES) % 12);
            15 * (entry / 5) + 6 + 2 * (entry % 5) + usize::from(word >= 7)
        }
    }
}

#[test]
fn a_word_out_of_range_is_named_by_its_string() {
    let words = words_of(7);
    let slots: Vec<usize> = (1..=24).map(slot_word).collect();
    let indices = (0..322).filter(|index| !slots.contains(index));
    for index in indices {
        let place = place_of(index);
        let least = i64::from(i32::MIN);
        let wrong = with(&words, index, least);
        assert_eq!(sky(&wrong).strings(), Err(Refusal::Range { place }));
        // Two at once: the lower place.
        for other in [4, 27, 33, 34, 321] {
            let place = place.min(place_of(other));
            let wrong = with(&wrong, other, least);
            assert_eq!(sky(&wrong).strings(), Err(Refusal::Range { place }));
        }
    }
}

#[test]
fn n4_is_1_to_31() {
    let words = words_of(8);
    for period in [-1, 0, 32] {
        let wrong = with(&words, N4, period);
        assert_eq!(sky(&wrong).strings(), Err(Refusal::Range { place: 5 }));
        let wrong = with(&wrong, 25, 4);
        assert_eq!(sky(&wrong).strings(), Err(Refusal::Range { place: 4 }));
    }
    for period in [1, 31] {
        assert!(sky(&with(&words, N4, period)).strings().is_ok());
    }
}

/// l of string 5 stands in every odd string from 7 on, too.
#[test]
fn an_l_out_of_range_is_string_5s() {
    let words = words_of(9);
    for l in [-1, 2] {
        let wrong = with(&words, L, l);
        assert_eq!(sky(&wrong).strings(), Err(Refusal::Range { place: 5 }));
    }
}

#[test]
fn words_and_bytes_are_1_288_and_no_other_count() {
    let bytes = make::sky_words(10);
    assert_eq!(bytes.len(), 1_288);
    let sky = Sky::from_bytes(&bytes).unwrap();
    assert_eq!(sky.to_bytes(), bytes);
    assert_eq!(sky.string_5[..], words_of(10)[STRING_5..B1]);
    for length in [0, 4, 1_284, 1_287, 1_289, 1_292, 2_576] {
        let mut other = bytes.clone();
        other.resize(length, 0);
        assert_eq!(Sky::from_bytes(&other), None);
    }
}

#[test]
fn the_answer_is_symbols_or_one_line() {
    let words = words_of(11);
    let symbols = answer_input(&values_to_bytes(&words));
    assert_eq!(symbols, sky(&words).symbols().unwrap());
    assert!(symbols.len() == 15_000 && symbols.iter().all(|&symbol| symbol <= 1));
    let answer = |words: &[i64]| answer_input(&values_to_bytes(words));
    assert_eq!(answer(&with(&words, slot_word(24), 23)), b"no 18\n");
    assert_eq!(answer(&with(&words, B1, 1024)), b"no 10 74\n");
    assert_eq!(answer(&words[1..]), b"short 1284\n");
    assert_eq!(answer_input(&[]), b"short 0\n");
    assert_eq!(answer_input(&[1; 1_289]), b"short 1289\n");
}

/// Every word of an entry but nA is at each of its ends in some slot. No l is as that of string
/// 3.
#[test]
fn made_skies_have_all_sorts_of_values() {
    let ends = [
        (0, 1),
        (0, 3),
        (1, 24),
        (-511, 511),
        (-1_048_575, 1_048_575),
        (-131_071, 131_071),
        (0, 32_767),
        (-32_767, 32_767),
        (0, 2_097_151),
        (-2_097_151, 2_097_151),
        (-63, 63),
        (-7, 13),
    ];
    for seed in 0..50 {
        let words = words_of(seed);
        assert_eq!(words.len(), 322);
        assert!(sky(&words).strings().is_ok(), "seed {seed}");
        assert_eq!(words[L] + words[L_OF_STRING_3], 1);
        for (index, (least, greatest)) in ends.into_iter().enumerate() {
            let values: Vec<i64> = words[ENTRIES..]
                .iter()
                .skip(index)
                .step_by(12)
                .copied()
                .collect();
            assert_eq!(values.iter().min(), Some(&least), "seed {seed}, {index}");
            assert_eq!(values.iter().max(), Some(&greatest), "seed {seed}, {index}");
        }
    }
    assert_ne!(make::sky_words(1), make::sky_words(2));
    assert_eq!(make::sky_words(1), make::sky_words(1));
}
