//! `trial`'s lines: framing, payloads, the order of refusals, the made input.

use second::alter::with_number;
use second::known::{a, received_frame, A, B, B_DAMAGED, B_INVERTED, FLIPS_THAT_DAMAGE};
use second::relative::to_relative;
use second::request::{
    append, join_strings, values_to_bytes, whole_requests, Piece, BLOCK, CARRIER, CHECK, CHIP,
    ENTRY, ENTRY_WORDS, FIVE_OF, FOUR_STRINGS, FRESH, FROM_RELATIVE, HEALTH, IMMEDIATE, JOIN,
    NAVIGATION, OFFER, OTHER_STATION, READ, RESET, SALVAGE, SKY, SUMMARY, TALLIES, TO_RELATIVE,
    WORD_AS_FLOAT, WRITE,
};
use second::string::NavString;
use second::{make, trial};

const A_HEX: &str = "0800000000000000000680";
const B_HEX: &str = "0ffffffffffffffffffb00";

/// The tallies of a channel that was offered nothing.
const NO_OFFER: &str = "ok 0 0 0 0 0 0 0 0 0 0 0 0 0 0";

fn answer_payload(op: u8, payload: &[u8]) -> String {
    let mut input = Vec::new();
    append(&mut input, op, payload);
    trial::answer_input(&input)
}

/// The first byte is the room, the reader's kind, or the word that is asked for.
fn answer(op: u8, first: u8, string: &[u8]) -> String {
    answer_payload(op, &[&[first], string].concat())
}

fn write(room: u8, kind: u8, m: u8, values: &[i64]) -> String {
    let payload = [&[room, kind, m], &values_to_bytes(values)[..]].concat();
    answer_payload(WRITE, &payload)
}

#[test]
fn known_strings_answer_in_hex() {
    assert_eq!(answer(FROM_RELATIVE, 11, &B), format!("ok {A_HEX} 0\n"));
    assert_eq!(
        answer(FROM_RELATIVE, 11, &B_INVERTED),
        format!("ok {A_HEX} 1\n")
    );
    assert_eq!(answer(TO_RELATIVE, 11, &A), format!("ok {B_HEX}\n"));
    assert_eq!(answer(CHECK, 11, &A), format!("ok 0 {A_HEX}\n"));
}

#[test]
fn a_repair_names_its_bit() {
    let mut string = A;
    string[0] ^= 0x80;
    assert_eq!(answer(CHECK, 11, &string), format!("ok 85 {A_HEX}\n"));
}

#[test]
fn check_refuses_in_the_order_12_2_31_to_33_4() {
    // Bit 85 stands at position 84 = 64 + 16 + 4: check bits 7, 5 and 3.
    let clean_but_for_idle = [0x80, 0, 0, 0, 0, 0, 0, 0, 0, 0x02, 0xA0];
    let string = NavString::from_bytes(&clean_but_for_idle).unwrap();
    for (number, flips) in FLIPS_THAT_DAMAGE {
        let damaged = string.flipped(flips).to_bytes();
        let damaged_and_padded = [&damaged[..10], &[damaged[10] | 1]].concat();
        assert_eq!(answer(CHECK, 10, &damaged_and_padded), "no 12\n");
        assert_eq!(answer(CHECK, 11, &damaged_and_padded), "no 2\n");
        assert_eq!(answer(CHECK, 11, &damaged), format!("no {number}\n"));
    }
    assert_eq!(answer(CHECK, 11, &clean_but_for_idle), "no 4\n");
}

#[test]
fn damaged_strings_print_31_to_33_in_the_check_the_reader_and_the_offer() {
    for (flips, line) in [
        (&[8][..], "no 31\n"),
        (&[9, 10], "no 32\n"),
        (&[85, 9, 8], "no 33\n"),
    ] {
        let string = a().flipped(flips).to_bytes();
        assert_eq!(answer(CHECK, 11, &string), line);
        assert_eq!(answer(READ, 1, &string), line);
    }
    for (number, symbols) in B_DAMAGED {
        let payload = [&[0, 0, 0, 0, 100], &symbols[..]].concat();
        assert_eq!(answer_payload(OFFER, &payload), format!("no {number}\n"));
    }
}

#[test]
fn relative_code_refuses_in_the_order_12_2_4() {
    let padded = [0xFF; 11];
    for op in [FROM_RELATIVE, TO_RELATIVE] {
        assert_eq!(answer(op, 12, &padded), "no 12\n");
        assert_eq!(answer(op, 11, &padded), "no 2\n");
    }
    assert_eq!(answer(TO_RELATIVE, 11, &B_INVERTED), "no 4\n");
}

#[test]
fn a_room_without_a_string_is_a_string_of_no_bytes() {
    for op in [FROM_RELATIVE, TO_RELATIVE, CHECK] {
        assert_eq!(answer(op, 11, &[]), "no 2\n");
        assert_eq!(answer(op, 0, &[]), "no 12\n");
    }
}

#[test]
fn the_reader_prints_m_and_words_in_decimal() {
    assert_eq!(answer(READ, 1, &A), "ok 1 0 0 0 0 0\n");
    assert_eq!(answer(READ, 2, &A), "no 11\n");
    assert_eq!(answer(READ, 1, &[0; 11]), "no 5\n");
    assert_eq!(answer(READ, 1, &[]), "no 2\n");
}

#[test]
fn the_encoder_prints_the_string() {
    assert_eq!(write(11, 1, 1, &[0; 5]), format!("ok {A_HEX}\n"));
    let tau_c = [1, -2147483648, 0, 0, 0];
    assert_eq!(write(11, 5, 5, &tau_c), "no 10 69\n");
}

#[test]
fn the_encoder_refuses_in_the_order_12_11_10() {
    assert_eq!(write(12, 2, 1, &[0; 6]), "no 12\n");
    assert_eq!(write(11, 2, 1, &[0; 6]), "no 11\n");
    assert_eq!(write(11, 2, 2, &[0; 6]), "no 10 76\n");
}

#[test]
fn h_prints_as_its_meaning() {
    let mut values = [0; 6];
    values[4] = -7;
    let string = write(11, 7, 9, &values);
    let hex = string.trim_end().strip_prefix("ok ").unwrap();
    let bytes: Vec<u8> = (0..hex.len())
        .step_by(2)
        .map(|at| u8::from_str_radix(&hex[at..at + 2], 16).unwrap())
        .collect();
    assert_eq!(answer(READ, 7, &bytes), "ok 9 0 0 0 0 -7 0\n");
}

#[test]
fn unknown_kinds_are_bad() {
    for kind in [0, 9, 255] {
        assert_eq!(answer(READ, kind, &A), "bad 4\n");
        assert_eq!(write(11, kind, 1, &[0; 5]), "bad 5\n");
    }
}

#[test]
fn values_that_are_not_one_for_each_word_are_bad() {
    assert_eq!(write(11, 1, 1, &[0; 4]), "bad 5\n");
    assert_eq!(write(11, 1, 1, &[0; 6]), "bad 5\n");
    let one_byte_short = [&[11, 1, 1], &[0; 19][..]].concat();
    assert_eq!(answer_payload(WRITE, &one_byte_short), "bad 5\n");
    for length in 0..=3 {
        assert_eq!(answer_payload(WRITE, &[11, 1, 1][..length]), "bad 5\n");
    }
}

/// An input of several requests, answered by one station.
fn answers(requests: &[(u8, Vec<u8>)]) -> Vec<String> {
    let mut input = Vec::new();
    for (op, payload) in requests {
        append(&mut input, *op, payload);
    }
    let lines = trial::answer_input(&input);
    lines.lines().map(String::from).collect()
}

fn offer_symbols(channel: u8, epoch: u8, symbols: &[u8]) -> (u8, Vec<u8>) {
    (OFFER, [&[channel, 0, 0, 0, epoch], symbols].concat())
}

fn offer_b(channel: u8, epoch: u8) -> (u8, Vec<u8>) {
    offer_symbols(channel, epoch, &B)
}

/// The received frame on channel 3, from epoch 100 on.
fn offers_of_received_frame() -> Vec<(u8, Vec<u8>)> {
    let offer = |(string, epoch)| {
        let symbols = to_relative(&string).unwrap().to_bytes();
        offer_symbols(3, epoch, &symbols)
    };
    received_frame().into_iter().zip(100..).map(offer).collect()
}

#[test]
fn an_offer_prints_m_repaired_bit_news_and_polarity() {
    let lines = answers(&offers_of_received_frame());
    let expected = (1..=15).map(|m| match m {
        4 => String::from("taken 4 0 2 0"),
        _ => format!("taken {m} 0 1 0"),
    });
    assert_eq!(lines, expected.collect::<Vec<_>>());
    let wrong = [
        offer_b(0, 100),
        offer_b(0, 100),
        offer_b(0, 99),
        offer_b(24, 100),
    ];
    assert_eq!(
        answers(&wrong),
        ["taken 1 0 1 0", "taken 1 0 0 0", "no 7", "no 15"]
    );
}

/// The last two are stale.
#[test]
fn one_string_in_both_polarities_is_held_already() {
    let offers = [
        offer_b(0, 100),
        offer_symbols(0, 100, &B_INVERTED),
        offer_symbols(1, 100, &B_INVERTED),
        offer_b(1, 100),
        offer_symbols(0, 99, &B_INVERTED),
        offer_b(1, 99),
    ];
    let lines = [
        "taken 1 0 1 0",
        "taken 1 0 0 1",
        "taken 1 0 1 1",
        "taken 1 0 0 0",
        "no 7",
        "no 7",
    ];
    assert_eq!(answers(&offers), lines);
}

#[test]
fn queries_tell_of_the_received_frame() {
    let mut requests = offers_of_received_frame();
    let queries = [(IMMEDIATE, 3), (ENTRY, 16), (TALLIES, 3), (HEALTH, 3)];
    requests.extend(queries.map(|(op, which)| (op, vec![which])));
    let expected = [
        "ok 0 1865 -1524643 0 29953275 0 1 59 2380845 1 -14498293 1 0 3 0 2002605 -2 40188871 \
         -29136 8 0 1 3 104 11 1 100",
        "ok 7409 b082059c4415530a7e 07a33d2bbf4bfeca5f",
        "ok 15 15 0 0 0 0 0 0 0 0 0 0 0 0",
        "ok 0",
    ];
    assert_eq!(answers(&requests)[15..], expected);
}

#[test]
fn a_reset_and_a_fresh_station_print_ok() {
    let requests = [
        offer_b(0, 100),
        (TALLIES, vec![0]),
        (RESET, vec![0]),
        (TALLIES, vec![0]),
        offer_b(0, 50),
        (FRESH, vec![]),
        (TALLIES, vec![0]),
        (RESET, vec![24]),
    ];
    let counted = "ok 1 1 0 0 0 0 0 0 0 0 0 0 0 0";
    let empty = NO_OFFER;
    let taken = "taken 1 0 1 0";
    assert_eq!(
        answers(&requests),
        [taken, counted, "ok", empty, taken, "ok", empty, "no 15"]
    );
}

#[test]
fn a_summary_prints_count_oldest_and_newest_day() {
    let mut requests = vec![(SUMMARY, vec![])];
    requests.extend(offers_of_received_frame());
    requests.extend([SUMMARY, FRESH, SUMMARY].map(|op| (op, vec![])));
    let lines = answers(&requests);
    assert_eq!(lines[0], "ok 0 0 0");
    assert_eq!(lines[16..], ["ok 5 7409 7409", "ok", "ok 0 0 0"]);
}

/// The text of channel 3 for card one, in this room.
fn text_in(room: u16) -> (u8, Vec<u8>) {
    let payload = [&[1, 3], &room.to_be_bytes()[..]].concat();
    (NAVIGATION, payload)
}

/// The received frame shows no entry for its own n: that of slot 16 is shown as slot 11.
fn offers_of_all_that_a_text_needs() -> Vec<(u8, Vec<u8>)> {
    let frame = received_frame();
    let entry = [frame[4], with_number(&frame[5], (77, 73), 11), frame[6]];
    let mut requests = offers_of_received_frame();
    for (string, epoch) in entry.iter().zip(104..) {
        let symbols = to_relative(string).unwrap().to_bytes();
        requests.push(offer_symbols(9, epoch, &symbols));
    }
    requests
}

/// What stands in the text is its own tests' business.
#[test]
fn a_navigation_record_prints_its_four_lines_in_one() {
    let mut requests = offers_of_all_that_a_text_needs();
    requests.push(text_in(320));
    let line = answers(&requests).pop().unwrap();
    assert_eq!(line.len(), 3 + 319);
    assert!(
        line.starts_with("ok 11 16  4 13 11 45  0.0 2.713501453400D-05 "),
        "{line}"
    );
    let lines: Vec<&str> = line[3..].split('|').collect();
    assert_eq!(lines.len(), 4);
    assert!(lines.iter().all(|line| line.len() == 79));
}

#[test]
fn a_room_of_more_than_1024_bytes_is_bad() {
    for (room, line) in [
        (0, "no 17"),
        (319, "no 17"),
        (321, "no 17"),
        (1024, "no 17"),
        (1025, "bad 18"),
        (0x4140, "bad 18"),
        (65535, "bad 18"),
    ] {
        let mut requests = offers_of_all_that_a_text_needs();
        requests.push(text_in(room));
        assert_eq!(answers(&requests).pop().unwrap(), line, "{room}");
    }
}

#[test]
fn string_5_and_the_carrier_print_their_words() {
    let mut requests = offers_of_all_that_a_text_needs();
    requests.push((FIVE_OF, vec![1, 3]));
    requests.extend([11, 16, 17].map(|slot| (CARRIER, vec![2, slot])));
    let lines = ["ok 104 0 6 -4 0", "ok -1", "ok -1", "ok 4"];
    assert_eq!(answers(&requests)[18..], lines);
}

#[test]
fn navigation_requests_name_their_card() {
    for (op, payload, line) in [
        (NAVIGATION, &[0, 0, 1, 64][..], "no 16\n"),
        (NAVIGATION, &[3, 255, 1, 64], "no 16\n"),
        (NAVIGATION, &[1, 48, 1, 64], "no 1\n"),
        (NAVIGATION, &[1, 24, 1, 64], "no 15\n"),
        (NAVIGATION, &[2, 23, 1, 64], "no 15\n"),
        (NAVIGATION, &[2, 24, 0, 0], "no 13\n"),
        (FIVE_OF, &[0, 48], "no 16\n"),
        (FIVE_OF, &[2, 48], "no 1\n"),
        (FIVE_OF, &[2, 0], "no 15\n"),
        (FIVE_OF, &[2, 47], "no 13\n"),
        (CARRIER, &[3, 0], "no 16\n"),
        (CARRIER, &[2, 0], "no 14\n"),
        (CARRIER, &[1, 25], "no 14\n"),
        (CARRIER, &[1, 24], "no 13\n"),
    ] {
        assert_eq!(answer_payload(op, payload), line, "{op} {payload:?}");
    }
}

#[test]
fn navigation_requests_of_another_length_are_bad() {
    for (op, length) in [(NAVIGATION, 4), (FIVE_OF, 2), (CARRIER, 2)] {
        for other in (0..300).filter(|&other| other != length) {
            let line = format!("bad {op}\n");
            assert_eq!(answer_payload(op, &vec![1; other]), line);
        }
    }
}

/// The words of a made sky, behind the room and the string that is asked for.
fn sky_in(room: u16, place: u8) -> Vec<u8> {
    let [high, low] = room.to_be_bytes();
    [&[high, low, place], &make::sky_words(7)[..]].concat()
}

/// In relative form string 1 begins with 000011, string 75, whose m is 15, with 010100. The
/// mark is the last 30 symbols.
#[test]
fn a_sky_prints_the_symbols_of_one_string() {
    for (place, first) in [(1, "ok 55a"), (75, "ok 665")] {
        let line = answer_payload(SKY, &sky_in(15_000, place));
        assert_eq!(line.len(), 3 + 50 + 1);
        assert!(line.starts_with(first), "{line}");
        let last = u32::from_str_radix(&line[45..53], 16).unwrap();
        assert_eq!(last & 0x3FFF_FFFF, 0b111110001101110101000010010110);
    }
}

#[test]
fn a_sky_is_refused_or_bad() {
    for (room, place, line) in [
        (0, 1, "no 12\n"),
        (14_999, 75, "no 12\n"),
        (15_001, 1, "no 12\n"),
        (16_000, 75, "no 12\n"),
        (16_001, 1, "bad 19\n"),
        (65_535, 1, "bad 19\n"),
        (15_000, 0, "bad 19\n"),
        (15_000, 76, "bad 19\n"),
        (0, 255, "bad 19\n"),
    ] {
        assert_eq!(answer_payload(SKY, &sky_in(room, place)), line);
    }
    let good = sky_in(15_000, 1);
    for length in [0, 1, 2, 3, 1_287, 1_290] {
        assert_eq!(answer_payload(SKY, &good[..length]), "bad 19\n");
    }
    let longer = [&good[..], &[0]].concat();
    assert_eq!(answer_payload(SKY, &longer), "bad 19\n");
}

#[test]
fn a_chip_prints_0_or_1() {
    for (number, line) in [
        (0_u16, "ok 1\n"),
        (6, "ok 1\n"),
        (7, "ok 0\n"),
        (11, "ok 0\n"),
        (12, "ok 1\n"),
        (511, "ok 1\n"),
        (518, "ok 0\n"),
    ] {
        assert_eq!(answer_payload(CHIP, &number.to_be_bytes()), line);
    }
    for length in (0..300).filter(|&length| length != 2) {
        assert_eq!(answer_payload(CHIP, &vec![0; length]), "bad 20\n");
    }
}

#[test]
fn a_word_prints_the_bits_of_its_float() {
    assert_eq!(answer(WORD_AS_FLOAT, 1, &A), "ok 0000000000000000\n");
    let greatest = with_number(&a(), (35, 9), 67_108_863).to_bytes();
    assert_eq!(answer(WORD_AS_FLOAT, 3, &greatest), "ok 40dffffff8000000\n");
    let least = with_number(&a(), (35, 9), 0x7FF_FFFF).to_bytes();
    assert_eq!(answer(WORD_AS_FLOAT, 3, &least), "ok c0dffffff8000000\n");
    let minus_zero = with_number(&a(), (35, 9), 1 << 26).to_bytes();
    assert_eq!(
        answer(WORD_AS_FLOAT, 3, &minus_zero),
        "ok 0000000000000000\n"
    );
}

#[test]
fn a_word_is_refused_by_the_readers_numbers() {
    assert_eq!(answer(WORD_AS_FLOAT, 4, &A), "no 11\n");
    for number in [0, 23, 255] {
        assert_eq!(answer(WORD_AS_FLOAT, number, &A), "no 11\n");
        assert_eq!(answer(WORD_AS_FLOAT, number, &[0; 11]), "no 5\n");
        assert_eq!(answer(WORD_AS_FLOAT, number, &[]), "no 2\n");
    }
    let hour_24 = with_number(&a(), (76, 65), 24 * 128).to_bytes();
    assert_eq!(answer(WORD_AS_FLOAT, 1, &hour_24), "no 10 76\n");
    assert_eq!(answer_payload(WORD_AS_FLOAT, &[]), "bad 15\n");
}

/// The words as request 8 has them.
#[test]
fn four_strings_print_words_and_floats() {
    let strings: Vec<Vec<u8>> = received_frame()[..4]
        .iter()
        .map(|string| string.to_bytes().to_vec())
        .collect();
    let expected = "ok 0 1865 -1524643 0 29953275 0 1 59 2380845 1 -14498293 1 0 3 0 2002605 -2 \
                    40188871 -29136 8 0 1 3 104 11 1 \
                    bff743a300000000 0000000000000000 40cc90cfb0000000 \
                    40022a1680000000 3e10000000000000 c0bba73ea0000000 \
                    0000000000000000 3ffe8ead00000000 be20000000000000 40d329de38000000 \
                    befc740000000000 3e40000000000000\n";
    assert_eq!(
        answer_payload(FOUR_STRINGS, &join_strings(&strings)),
        expected
    );
}

#[test]
fn four_strings_are_refused_by_their_lengths_first() {
    let padded = [0xFF; 11].to_vec();
    let good = A.to_vec();
    for (strings, line) in [
        ([&padded, &good, &good, &vec![0; 10]], "no 2\n"),
        ([&good, &vec![], &good, &good], "no 2\n"),
        ([&good, &good, &good, &padded], "no 11\n"),
        ([&good, &padded, &good, &good], "no 2\n"),
    ] {
        let payload = join_strings(&strings.map(Vec::clone));
        assert_eq!(answer_payload(FOUR_STRINGS, &payload), line);
    }
}

#[test]
fn four_strings_and_no_more() {
    let good = join_strings(&[A.to_vec(), A.to_vec(), A.to_vec(), A.to_vec()]);
    assert_eq!(answer_payload(FOUR_STRINGS, &good), "no 11\n");
    for length in 0..good.len() {
        assert_eq!(answer_payload(FOUR_STRINGS, &good[..length]), "bad 16\n");
    }
    let more = [&good[..], &[0]].concat();
    assert_eq!(answer_payload(FOUR_STRINGS, &more), "bad 16\n");
    assert_eq!(answer_payload(FOUR_STRINGS, &[0; 4]), "no 2\n");
}

/// B at this epoch, as a field of a block.
fn field_of_b(channel: u8, epoch: u8) -> Vec<u8> {
    let (_, payload) = offer_b(channel, epoch);
    [&[1, 0, 16], &payload[..]].concat()
}

/// A remark, a call that is refused, a reset, and queries between the blocks.
#[test]
fn a_block_prints_the_lines_of_its_calls_and_how_it_ended() {
    let remark = [3, 0, 2, 1, 0];
    let [reset_of_0, reset_of_24] = [[2, 0, 1, 0], [2, 0, 1, 24]];
    let first = [&field_of_b(0, 100)[..], &remark, &field_of_b(0, 99)].concat();
    let next = [&reset_of_24[..], &field_of_b(48, 100), &reset_of_0].concat();
    let requests = [
        (BLOCK, first),
        (TALLIES, vec![0]),
        (BLOCK, next),
        (TALLIES, vec![0]),
        (BLOCK, vec![]),
        (BLOCK, remark.to_vec()),
    ];
    let lines = [
        "taken 1 0 1 0",
        "no 7",
        "end",
        "ok 2 1 0 1 0 0 0 0 0 0 0 1 0 0",
        "no 15",
        "no 1",
        "ok",
        "end",
        NO_OFFER,
        "end",
        "end",
    ];
    assert_eq!(answers(&requests), lines);
}

#[test]
fn a_refused_field_prints_its_number_and_place_and_no_more() {
    for (refused, line) in [
        (&[4, 0, 0][..], "no 41 19"),
        (&[2, 0, 2, 0, 0], "no 42 19"),
        (&[4, 0xFF, 0xFF], "no 43 19"),
    ] {
        let block = [&field_of_b(0, 100), refused, &field_of_b(1, 100)].concat();
        let requests = [(BLOCK, block), (TALLIES, vec![0]), (TALLIES, vec![1])];
        let lines = [
            "taken 1 0 1 0",
            line,
            "ok 1 1 0 0 0 0 0 0 0 0 0 0 0 0",
            NO_OFFER,
        ];
        assert_eq!(answers(&requests), lines);
    }
}

fn salvage(output: u8, list: u8, file: &[u8]) -> String {
    answer_payload(SALVAGE, &[&[output, list], file].concat())
}

#[test]
fn salvage_prints_what_is_kept_and_the_stretches() {
    let torn = [9, 3, 0, 0, 2, 0, 1, 5, 7, 7];
    assert_eq!(salvage(7, 2, &torn), "ok 03000002000105 0+1 8+2\n");
    assert_eq!(salvage(255, 255, &torn[1..8]), "ok 03000002000105\n");
    assert_eq!(salvage(0, 1, &[9, 9]), "ok - 0+2\n");
    assert_eq!(salvage(0, 0, &[]), "ok -\n");
}

#[test]
fn salvage_without_room_prints_number_and_byte_and_the_same() {
    let torn = [9, 3, 0, 0, 2, 0, 1, 5, 7, 7];
    assert_eq!(salvage(6, 2, &torn), "no 44 4 030000 0+1\n");
    assert_eq!(salvage(2, 2, &torn), "no 44 1 - 0+1\n");
    assert_eq!(salvage(0, 0, &torn[1..]), "no 44 0 -\n");
    assert_eq!(salvage(7, 0, &torn), "no 45 0 -\n");
    assert_eq!(salvage(7, 1, &torn), "no 45 8 03000002000105 0+1\n");
}

#[test]
fn a_file_of_more_than_96_bytes_is_bad() {
    let lines = [(96, "ok - 0+96\n"), (97, "bad 17\n"), (1000, "bad 17\n")];
    for (length, line) in lines {
        assert_eq!(salvage(255, 255, &vec![0; length]), line);
    }
    for payload in [&[][..], &[0]] {
        assert_eq!(answer_payload(SALVAGE, payload), "bad 17\n");
    }
}

#[test]
fn queries_of_nothing_and_nowhere() {
    for (op, which, line) in [
        (IMMEDIATE, 0, "no 13\n"),
        (IMMEDIATE, 24, "no 15\n"),
        (IMMEDIATE, 48, "no 1\n"),
        (ENTRY, 1, "no 13\n"),
        (ENTRY, 0, "no 14\n"),
        (ENTRY, 25, "no 14\n"),
        (ENTRY_WORDS, 1, "no 13\n"),
        (ENTRY_WORDS, 0, "no 14\n"),
        (ENTRY_WORDS, 25, "no 14\n"),
        (TALLIES, 24, "no 15\n"),
        (TALLIES, 48, "no 1\n"),
        (HEALTH, 0, "ok 0\n"),
        (HEALTH, 24, "no 15\n"),
        (HEALTH, 48, "no 1\n"),
    ] {
        assert_eq!(answer_payload(op, &[which]), line);
    }
}

#[test]
fn payloads_of_the_station_have_their_lengths() {
    for length in 0..5 {
        assert_eq!(answer_payload(OFFER, &vec![0; length]), "bad 6\n");
    }
    assert_eq!(answer_payload(OFFER, &[0; 5]), "no 2\n");
    for op in [RESET, IMMEDIATE, ENTRY, TALLIES, HEALTH, ENTRY_WORDS] {
        for payload in [&[][..], &[1, 0]] {
            assert_eq!(answer_payload(op, payload), format!("bad {op}\n"));
        }
    }
    for op in [FRESH, SUMMARY, OTHER_STATION, JOIN] {
        for payload in [&[0][..], &[1, 0], &[0; 256]] {
            assert_eq!(answer_payload(op, payload), format!("bad {op}\n"));
        }
    }
}

#[test]
fn unknown_ops_and_empty_payloads_are_bad() {
    let input = [1, 0, 0, 2, 0, 0, 3, 0, 0, 4, 0, 0, 0, 0, 1, 11, 255, 0, 0];
    let lines = "bad 1\nbad 2\nbad 3\nbad 4\nbad 0\nbad 255\n";
    assert_eq!(trial::answer_input(&input), lines);
}

#[test]
fn a_request_cut_short_counts_its_bytes_from_the_op_on() {
    assert_eq!(trial::answer_input(&[]), "");
    assert_eq!(trial::answer_input(&[3]), "short 1\n");
    assert_eq!(trial::answer_input(&[255, 0]), "short 2\n");
    assert_eq!(trial::answer_input(&[3, 0, 1]), "short 3\n");
    assert_eq!(
        trial::answer_input(&[3, 0, 0, 3, 1, 0, 11]),
        "bad 3\nshort 4\n"
    );
}

#[test]
fn the_made_input_follows_from_its_seed() {
    assert_eq!(make::trial_input(7), make::trial_input(7));
    assert_ne!(make::trial_input(7), make::trial_input(8));
}

#[test]
fn the_made_input_draws_every_kind_of_line() {
    let lines = trial::answer_input(&make::trial_input(7));
    for kind in [
        "ok 0 ", "ok 85 ", "no 1", "no 2", "no 31", "no 32", "no 33", "no 4", "no 5", "no 6",
        "no 7", "no 8", "no 9", "no 10 76", "no 11", "no 12", "no 13", "no 14", "taken 1 ",
        "no 41 ", "no 42 ", "no 43 ", "no 44 ", "no 45 ", "end", "bad 0", "bad 4", "bad 5",
        "bad 6", "bad 12", "bad 14", "bad 15", "bad 16", "bad 17", "bad 18", "bad 23", "bad 24",
        "bad 25", "no 10 26", "no 10 36", "no 17", "no 10 74", "no 18", "bad 19", "bad 20",
        "bad 21", "bad 22", "bad 53", "bad 54", "short 10",
    ] {
        assert!(lines.lines().any(|line| line.starts_with(kind)), "{kind}");
    }
}

/// The seed is that of the stored input.
#[test]
fn the_made_input_has_each_cause_of_damage_in_each_call() {
    let input = make::trial_input(20260);
    let answers: Vec<(Piece, String)> = trial::answers(&input).collect();
    let answered = |asked: u8, line: &str| {
        answers.iter().any(|(piece, answer)| match piece {
            Piece::Whole(request) => request.op == asked && answer == line,
            Piece::Short(_) => false,
        })
    };
    for op in [CHECK, READ, OFFER] {
        for line in ["no 31", "no 32", "no 33"] {
            assert!(answered(op, line), "op {op}: {line}");
        }
    }
    let mut lines = answers.iter().flat_map(|(_, answer)| answer.lines());
    assert!(lines.all(|line| line != "no 3"));
}

#[test]
fn the_made_input_has_at_least_20_000_requests() {
    let input = make::trial_input(3);
    assert!(whole_requests(&input).count() >= 20_000);
}

#[test]
fn the_input_for_words_asks_no_station() {
    let input = make::words_input(3);
    let ops: Vec<u8> = whole_requests(&input).map(|request| request.op).collect();
    assert!((FROM_RELATIVE..=WRITE).all(|op| ops.contains(&op)));
    assert!(!ops.iter().any(|op| (OFFER..=FRESH).contains(op)));
    let others = [
        BLOCK,
        SUMMARY,
        WORD_AS_FLOAT,
        FOUR_STRINGS,
        SALVAGE,
        NAVIGATION,
        SKY,
        CHIP,
        OTHER_STATION,
        JOIN,
        ENTRY_WORDS,
        FIVE_OF,
        CARRIER,
    ];
    assert!(!others.iter().any(|op| ops.contains(op)));
}

/// The second offer is stale, the third one damaged, the last on another channel.
#[test]
fn tallies_print_four_counts_and_the_ten_causes() {
    let requests = [
        offer_b(0, 100),
        offer_b(0, 99),
        offer_symbols(0, 100, &B_DAMAGED[1].1),
        (OFFER, vec![0; 5]),
        offer_b(24, 100),
        (TALLIES, vec![0]),
    ];
    let line = "ok 4 1 0 3 1 0 1 0 0 0 0 1 0 0";
    assert_eq!(answers(&requests)[5], line);
}

#[test]
fn tallies_near_the_limit_begin_at_4_294_967_293_but_those_of_a_fresh_station() {
    let mut input = Vec::new();
    for (op, payload) in [
        (TALLIES, vec![0]),
        offer_b(0, 100),
        (TALLIES, vec![0]),
        (FRESH, vec![]),
        (TALLIES, vec![0]),
    ] {
        append(&mut input, op, &payload);
    }
    let start = " 4294967293";
    let expected = [
        format!("ok{}", start.repeat(14)),
        String::from("taken 1 0 1 0"),
        format!("ok 4294967294 4294967294{}", start.repeat(12)),
        String::from("ok"),
        String::from(NO_OFFER),
    ];
    let lines = trial::answer_input_near_the_limit(&input);
    assert_eq!(lines.lines().collect::<Vec<_>>(), expected);
}

#[test]
fn the_sample_fills_the_book() {
    let lines = trial::answer_input(&make::sample_for_trial());
    let lines: Vec<&str> = lines.lines().collect();
    let (summary, lines) = lines.split_last().expect("lines");
    assert_eq!(*summary, "ok 24 7408 7409");
    let book = &lines[lines.len() - 24..];
    for (slot, line) in (1..).zip(book) {
        let day = match slot {
            16..=20 => "ok 7409 ",
            _ => "ok 7408 ",
        };
        assert!(line.starts_with(day), "slot {slot}: {line}");
    }
}

#[test]
fn the_sample_has_a_second_card() {
    let lines = trial::answer_input(&make::sample_for_trial());
    let lines: Vec<&str> = lines.lines().collect();
    let before_the_book = lines.len() - 25;
    let [record, tallies, health, others_record] = lines[before_the_book - 4..before_the_book]
    else {
        panic!("four lines");
    };
    assert!(record.starts_with("ok "), "{record}");
    assert_eq!(tallies, format!("ok 4 4{}", " 0".repeat(12)));
    assert_eq!(health, "ok 1");
    assert_eq!(others_record, "no 15");
}
