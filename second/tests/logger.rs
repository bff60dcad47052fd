//! The logger's lines.

use second::alter::{minus_zero, with_bit_inverted, with_code, with_m};
use second::known::{received_frame, A, FLIPS_OF_CHECK_BITS};
use second::logger::answer_stream;
use second::make;
use second::random::SplitMix64;
use second::string::{NavString, IDLE_BIT};
use second::words::kinds::{kind_of, ALMANAC_SLOT, EVEN, ODD, TK};

fn lines_of_bytes(input: &[u8]) -> Vec<String> {
    let mut output = Vec::new();
    answer_stream(input, &mut output).unwrap();
    let text = String::from_utf8(output).unwrap();
    assert!(text.is_empty() || text.ends_with('\n'));
    text.lines().map(String::from).collect()
}

fn lines(strings: &[NavString]) -> Vec<String> {
    let bytes: Vec<u8> = strings.iter().flat_map(NavString::to_bytes).collect();
    lines_of_bytes(&bytes)
}

fn line(string: &NavString) -> String {
    let [line] = lines(&[*string]).try_into().unwrap();
    line
}

/// The first words of each line: `string M`, `record` or `no N`.
fn heads(lines: &[String]) -> Vec<String> {
    let head = |line: &String| match line.split(' ').collect::<Vec<_>>()[..] {
        ["record", ..] => String::from("record"),
        [first, second, ..] => format!("{first} {second}"),
        _ => panic!("{line}"),
    };
    lines.iter().map(head).collect()
}

fn count_of_records(strings: &[NavString]) -> usize {
    let is_record = |line: &&String| line.starts_with("record ");
    lines(strings).iter().filter(is_record).count()
}

#[test]
fn the_received_frame() {
    let lines = lines(&received_frame());
    assert_eq!(lines.len(), 16);
    assert_eq!(
        lines[..4],
        [1, 2, 3, 4].map(|m| format!("string {m} clean"))
    );
    assert_eq!(
        lines[4],
        "record vx=-1.45401287078857421875 ax=0.000000000000000000000000000000 \
         x=14625.62255859375 vy=2.27055072784423828125 ay=0.000000000931322574615478515625 \
         y=-7079.24462890625 gamma=0.0000000000000000000000000000000000000000 \
         vz=1.90983295440673828125 az=-0.000000001862645149230957031250 z=19623.47216796875 \
         tau=-0.000027135014533996582031250000 dtau=0.000000007450580596923828125000"
    );
    assert_eq!(
        lines[5],
        "string 5 clean tauc=0.0000000000000000000000000000000 \
         taugps=-0.000000003725290298461914062500"
    );
    assert_eq!(
        lines[6],
        "string 6 clean taua=-0.000030517578125000 lambda=0.17532539367675781250 \
         di=0.01041221618652343750"
    );
    assert_eq!(
        lines[7],
        "string 7 clean omega=0.119323730468750 dt=-2655.960937500 rate=-0.00109863281250"
    );
    assert_eq!(
        lines[14],
        "string 14 clean taua=0.000225067138671875 lambda=-0.64388847351074218750 \
         di=0.01285171508789062500 b1=-0.4062500000 b2=0.0072937011718750"
    );
}

#[test]
fn a_repaired_string_names_the_bit_and_has_its_numbers() {
    for string in &received_frame()[4..] {
        for bit in (1..=85).filter(|&bit| bit != 8) {
            let expected = line(string).replace("clean", &format!("repaired {bit}"));
            assert_eq!(line(&string.flipped(&[bit])), expected);
        }
    }
}

#[test]
fn a_refused_string_has_the_readers_number() {
    let string = with_m(&SplitMix64::new(31).string_of(&EVEN), 8);
    for (number, flips) in FLIPS_OF_CHECK_BITS {
        assert_eq!(line(&string.flipped(flips)), format!("no {number}"));
    }
    assert_eq!(line(&with_bit_inverted(&string, IDLE_BIT)), "no 4");
    assert_eq!(line(&with_m(&string, 0)), "no 5");
    assert_eq!(line(&with_code(&string, &ALMANAC_SLOT, 25)), "no 10 77");
    let mut padded = string.to_bytes();
    padded[10] |= 2;
    assert_eq!(lines_of_bytes(&padded), ["no 2"]);
}

/// m says which kind is read, so PLACE is never answered.
#[test]
fn every_m_is_read_as_its_kind() {
    let mut random = SplitMix64::new(32);
    for m in 1..=15 {
        let string = with_m(&random.string_of(kind_of(m)), m);
        assert!(line(&string).starts_with(&format!("string {m} clean")));
        let zeros = line(&with_m(&NavString::zero(), m));
        let expected = match m {
            2 => "no 10 76",
            5 => "no 10 80",
            6 | 8 | 10 | 12 | 14 => "no 10 77",
            _ => "string ",
        };
        assert!(zeros.starts_with(expected), "{zeros}");
    }
}

/// No number has a minus sign.
#[test]
fn minus_zeros_print_as_zeros() {
    let mut random = SplitMix64::new(33);
    for kind in [&EVEN, &ODD] {
        let mut string = random.string_of(kind);
        for word in kind.signed_words() {
            string = with_code(&string, word, minus_zero(word));
        }
        let line = line(&with_m(&string, kind.strings[0]));
        assert!(!line.contains('-'), "{line}");
        assert_eq!(line.matches("=0.").count(), 3, "{line}");
    }
}

/// As many decimals as the unit has binary places.
#[test]
fn numbers_have_the_decimals_of_their_units() {
    let decimals = [
        ("vx", 20),
        ("ax", 30),
        ("x", 11),
        ("gamma", 40),
        ("tau", 30),
        ("dtau", 30),
        ("tauc", 31),
        ("taugps", 30),
        ("taua", 18),
        ("lambda", 20),
        ("di", 20),
        ("omega", 15),
        ("dt", 9),
        ("rate", 14),
        ("b1", 10),
        ("b2", 16),
    ];
    let text = lines_of_bytes(&make::logger_input(1)).join(" ");
    for (name, places) in decimals {
        let is_named = |item: &str| item.strip_prefix(name)?.strip_prefix('=').map(String::from);
        let values: Vec<String> = text.split(' ').filter_map(is_named).collect();
        assert!(values.len() > 10, "{name}");
        for value in values {
            let (_, decimals) = value.split_once('.').unwrap();
            assert_eq!(decimals.len(), places, "{name}={value}");
        }
    }
}

#[test]
fn a_record_needs_strings_1_to_4_in_turn() {
    let mut random = SplitMix64::new(34);
    let four = random.strings_of_a_record();
    let [first, second, third, fourth] = four;
    assert_eq!(count_of_records(&four), 1);
    assert_eq!(count_of_records(&[first, first, second, third, fourth]), 1);
    assert_eq!(count_of_records(&[&four[..], &four].concat()), 2);
    assert_eq!(count_of_records(&[&four[..], &[fourth]].concat()), 1);
    assert_eq!(count_of_records(&[&four[1..], &four].concat()), 1);
    for m in [2, 3, 4] {
        let mut again = four.to_vec();
        again.insert(m, four[m - 1]);
        assert_eq!(count_of_records(&again), usize::from(m == 4), "{m} again");
        let mut missing = four.to_vec();
        missing.remove(m - 1);
        assert_eq!(count_of_records(&missing), 0, "without {m}");
    }
    let string_5 = random.string_of(kind_of(5));
    for place in 1..4 {
        let mut between = four.to_vec();
        between.insert(place, string_5);
        assert_eq!(count_of_records(&between), 0);
    }
}

#[test]
fn a_refused_string_among_the_four_breaks_the_turn() {
    let four = SplitMix64::new(35).strings_of_a_record();
    for place in 0..=4 {
        let mut strings = four.to_vec();
        strings.insert(place, four[0].flipped(&[8]));
        let expected = usize::from(place == 0 || place == 4);
        assert_eq!(count_of_records(&strings), expected, "{place}");
    }
    let mut out_of_range = four;
    out_of_range[0] = with_code(&four[0], &TK, 24 * 128);
    assert_eq!(
        heads(&lines(&out_of_range)),
        ["no 10", "string 2", "string 3", "string 4"]
    );
}

#[test]
fn the_record_of_repaired_strings_is_that_of_clean_ones() {
    let four = SplitMix64::new(36).strings_of_a_record();
    let repaired = four.map(|string| string.flipped(&[40]));
    let lines_of_repaired = lines(&repaired);
    assert_eq!(lines_of_repaired[4], lines(&four)[4]);
    assert_eq!(lines_of_repaired[3], "string 4 repaired 40");
}

#[test]
fn bytes_left_over_are_short() {
    assert_eq!(lines_of_bytes(&[]), [""; 0]);
    for count in 1..=10 {
        let short = format!("short {count}");
        assert_eq!(lines_of_bytes(&A[..count]), [&short[..]]);
        let input = [&A, &A[..count]].concat();
        assert_eq!(lines_of_bytes(&input), ["string 1 clean", &short]);
    }
}

#[test]
fn the_made_strings_follow_from_their_seed() {
    assert_eq!(make::logger_input(7), make::logger_input(7));
    assert_ne!(make::logger_input(7), make::logger_input(8));
    assert_eq!(make::logger_input(7).len(), 2000 * 11);
}

/// Each kind clean and repaired, each refusal, and more than a hundred records.
#[test]
fn the_made_strings_draw_every_kind_of_line() {
    let lines = lines_of_bytes(&make::logger_input(20260));
    let has = |start: &str| lines.iter().any(|line| line.starts_with(start));
    for m in 1..=15 {
        assert!(has(&format!("string {m} clean")), "{m}");
        assert!(has(&format!("string {m} repaired ")), "{m}");
    }
    for number in ["2", "31", "32", "33", "4", "5"] {
        assert!(lines.iter().any(|line| *line == format!("no {number}")));
    }
    for place in ["76", "80", "77", "14"] {
        assert!(lines.iter().any(|line| *line == format!("no 10 {place}")));
    }
    assert!(!lines.iter().any(|line| line == "no 11"));
    let records = lines.iter().filter(|line| line.starts_with("record "));
    assert!(records.count() > 100);
    for bit in (1..=85).filter(|&bit| bit != 8) {
        let repaired = format!(" repaired {bit}");
        let is_repaired =
            |line: &String| line.ends_with(&repaired) || line.contains(&format!("{repaired} "));
        assert!(lines.iter().any(is_repaired), "{bit}");
    }
}

/// A record follows string 4 and nothing else, and after string 4 in turn always.
#[test]
fn the_made_strings_have_the_four_in_turn_and_out_of_turn() {
    let heads = heads(&lines_of_bytes(&make::logger_input(20260)));
    let turn = ["string 1", "string 2", "string 3", "string 4"];
    let mut out_of_turn = 0;
    for place in 4..heads.len() {
        let in_turn = heads[place - 4..place] == turn;
        assert_eq!(heads[place] == "record", in_turn);
        out_of_turn += usize::from(heads[place - 1] == "string 4" && !in_turn);
    }
    assert!(out_of_turn > 50, "{out_of_turn}");
}

#[test]
fn only_strings_5_to_15_have_numbers_on_their_lines() {
    let mut random = SplitMix64::new(37);
    for m in 1..=15 {
        let line = line(&with_m(&random.string_of(kind_of(m)), m));
        match m {
            1..=4 => assert_eq!(line, format!("string {m} clean")),
            _ => assert!(line.starts_with(&format!("string {m} clean ")), "{line}"),
        }
    }
}
