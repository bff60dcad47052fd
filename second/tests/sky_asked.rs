//! The made input asks for skies and chips of every sort. The seed is that of the stored input.

use std::collections::HashSet;

use second::make;
use second::request::{whole_requests, Piece, CHIP, SKY};
use second::sky::Sky;
use second::trial;

/// The payload of a request and its line.
type Asked = (Vec<u8>, String);

fn asked(op: u8) -> Vec<Asked> {
    let input = make::trial_input(20260);
    let answers = trial::answers(&input);
    answers
        .filter_map(|(piece, line)| match piece {
            Piece::Whole(request) if request.op == op => Some((request.payload.to_vec(), line)),
            _ => None,
        })
        .collect()
}

/// The room, the string that is asked for, and the words.
fn parts(payload: &[u8]) -> Option<(u16, u8, Sky)> {
    let (&[high, low, place], words) = payload.split_first_chunk()?;
    Some((
        u16::from_be_bytes([high, low]),
        place,
        Sky::from_bytes(words)?,
    ))
}

/// What a whole payload of the right length has wrong: its room, the order, a word.
fn wrongs(room: u16, sky: &Sky) -> [bool; 3] {
    let slots = sky.entries.iter().map(|entry| entry[2]);
    let is_out_of_order = !slots.eq(1..=24);
    let mut in_order = sky.clone();
    for (slot, entry) in (1..).zip(&mut in_order.entries) {
        entry[2] = slot;
    }
    [room != 15_000, is_out_of_order, in_order.strings().is_err()]
}

#[test]
fn one_sky_is_asked_for_every_string() {
    let found: HashSet<(Vec<u8>, u8)> = asked(SKY)
        .into_iter()
        .filter(|(_, line)| line.starts_with("ok"))
        .map(|(payload, _)| (payload[3..].to_vec(), payload[2]))
        .collect();
    let has_all =
        |(words, _): &(Vec<u8>, u8)| (1..=75).all(|place| found.contains(&(words.clone(), place)));
    assert!(found.iter().any(has_all));
}

#[test]
fn symbols_are_fifty_digits_and_end_with_the_mark() {
    for (payload, line) in asked(SKY) {
        if let Some(hex) = line.strip_prefix("ok ") {
            let (room, place, sky) = parts(&payload).unwrap();
            assert_eq!((room, hex.len()), (15_000, 50));
            let symbols = sky.symbols().unwrap();
            let own = &symbols[200 * usize::from(place - 1)..][..200];
            for (digit, four) in hex.chars().zip(own.chunks(4)) {
                let number = four
                    .iter()
                    .fold(0, |number, bit| 2 * number + u32::from(*bit));
                assert_eq!(digit.to_digit(16), Some(number));
            }
        }
    }
}

#[test]
fn every_room_comes_with_everything_right_and_wrong() {
    let lines: HashSet<(u16, bool, String)> = asked(SKY)
        .into_iter()
        .filter_map(|(payload, line)| {
            let (room, place, sky) = parts(&payload)?;
            let [_, is_out_of_order, is_out_of_range] = wrongs(room, &sky);
            let is_good = !is_out_of_order && !is_out_of_range && place == 1;
            Some((room, is_good, String::from(&line[..5])))
        })
        .collect();
    for (room, good, wrong) in [
        (0, "no 12", "no 12"),
        (14_999, "no 12", "no 12"),
        (15_000, "ok 55", "no 18"),
        (15_001, "no 12", "no 12"),
        (16_000, "no 12", "no 12"),
        (16_001, "bad 1", "bad 1"),
    ] {
        let has = |is_good, line: &str| lines.contains(&(room, is_good, String::from(line)));
        assert!(has(true, good), "{room}");
        assert!(has(false, wrong), "{room}");
    }
}

/// `bad` comes before all refusals, 12 before 18, 18 before 10.
#[test]
fn refusals_come_in_their_order() {
    let mut found = HashSet::new();
    for (payload, line) in asked(SKY) {
        let Some((room, place, sky)) = parts(&payload) else {
            assert_eq!(line, "bad 19");
            continue;
        };
        let wrongs = wrongs(room, &sky);
        let expected = match wrongs {
            _ if !(1..=75).contains(&place) || room > 16_000 => "bad 19",
            [true, _, _] => "no 12",
            [_, true, _] => "no 18",
            [_, _, true] => "no 10 ",
            _ => "ok ",
        };
        assert!(line.starts_with(expected), "{line}");
        found.insert((String::from(expected), wrongs));
    }
    let has = |line: &str, wrongs| {
        let wanted = (String::from(line), wrongs);
        assert!(found.contains(&wanted), "{wanted:?}");
    };
    for is_out_of_range in [false, true] {
        for is_out_of_order in [false, true] {
            has("no 12", [true, is_out_of_order, is_out_of_range]);
        }
        has("no 18", [false, true, is_out_of_range]);
    }
    has("no 10 ", [false, false, true]);
    has("ok ", [false, false, false]);
    has("bad 19", [false, false, false]);
    has("bad 19", [true, true, true]);
}

/// Those of frame 1, of the entries of the others, and string 14 of frame 5.
#[test]
fn every_place_that_can_be_named_is_named() {
    let found: HashSet<usize> = asked(SKY)
        .into_iter()
        .filter_map(|(_, line)| line.strip_prefix("no 10 ")?.parse().ok())
        .collect();
    let places = (1..75).filter(|place| *place <= 5 || (place - 1) % 15 + 1 > 5);
    assert_eq!(found, places.collect());
}

#[test]
fn every_slot_is_the_only_wrong_one() {
    let mut found = HashSet::new();
    for (payload, line) in asked(SKY) {
        let Some((15_000, _, sky)) = parts(&payload) else {
            continue;
        };
        let slots = sky.entries.iter().map(|entry| entry[2]);
        let wrong: Vec<usize> = (1..)
            .zip(slots)
            .filter(|&(slot, own)| own != slot as i64)
            .map(|(slot, _)| slot)
            .collect();
        if let [slot] = wrong[..] {
            assert_eq!(line, "no 18");
            found.insert(slot);
        }
    }
    assert_eq!(found, (1..=24).collect());
}

#[test]
fn n4_is_0_alone_and_with_others() {
    let found: HashSet<String> = asked(SKY)
        .into_iter()
        .filter(|(payload, _)| parts(payload).is_some_and(|(_, _, sky)| sky.string_5[2] == 0))
        .map(|(_, line)| line)
        .collect();
    for line in ["no 10 5", "no 10 4", "no 18"] {
        assert!(found.contains(line), "{line}");
    }
}

#[test]
fn strings_that_there_are_not_are_bad() {
    let found: HashSet<u8> = asked(SKY)
        .into_iter()
        .filter(|(payload, line)| payload.len() == 1_291 && line == "bad 19")
        .map(|(payload, _)| payload[2])
        .collect();
    assert!([0, 76, 255].iter().all(|place| found.contains(place)));
}

#[test]
fn payloads_of_other_lengths_are_bad() {
    let found: HashSet<usize> = asked(SKY)
        .into_iter()
        .filter(|(payload, line)| payload.len() != 1_291 && line == "bad 19")
        .map(|(payload, _)| payload.len())
        .collect();
    for length in [0, 1, 2, 3, 1_287, 1_290, 1_292, 1_295] {
        assert!(found.contains(&length), "{length}");
    }
}

#[test]
fn chips_are_asked_for_by_every_number_of_two_periods() {
    let found: HashSet<Asked> = asked(CHIP).into_iter().collect();
    let chips: Vec<u8> = second::ranging::chips().take(511).collect();
    for number in (0..1_024_u16).chain([65_535]) {
        let line = format!("ok {}", chips[usize::from(number) % 511]);
        let payload = number.to_be_bytes().to_vec();
        assert!(found.contains(&(payload, line)), "{number}");
    }
    for length in [0, 1, 3, 4] {
        let is_bad = |(payload, line): &Asked| payload.len() == length && line == "bad 20";
        assert!(found.iter().any(is_bad), "{length}");
    }
}

/// Each has 1.3 KB.
#[test]
fn skies_are_not_too_many() {
    let input = make::trial_input(20260);
    let requests = whole_requests(&input).filter(|request| request.op == SKY);
    assert!((200..290).contains(&requests.count()));
}
