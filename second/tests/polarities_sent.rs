//! The made inputs send both polarities of strings that are taken, by verdict and by
//! news, and of strings that are refused, by each number. The seeds and the count are
//! those of the stored inputs.

use std::collections::HashSet;

use second::listing::RECORD_BYTES;
use second::request::{append, Piece, FROM_RELATIVE, OFFER};
use second::{make, trial};

/// The first symbol of a string in relative form; none where there is no string.
fn first_symbol(piece: Piece, asked: u8, start: usize) -> Option<u8> {
    match piece {
        Piece::Whole(request) if request.op == asked => {
            let first_byte = request.payload.get(start)?;
            Some(first_byte >> 7)
        }
        _ => None,
    }
}

/// A line that grants ends with the polarity: it must be the first symbol.
fn kind_of_line(line: &str, symbol: u8) -> String {
    let fields: Vec<&str> = line.split(' ').collect();
    let told = fields[fields.len() - 1] == symbol.to_string();
    match fields.as_slice() {
        ["ok", _, _] if told => String::from("ok"),
        ["taken", _, "0", news, _] if told => format!("clean {news}"),
        ["taken", _, _, news, _] if told => format!("repaired {news}"),
        ["no", _] => String::from(line),
        _ => panic!("{line} for symbol {symbol}"),
    }
}

/// What this op answers, each with the first symbol it was asked with.
fn kinds_of_lines(input: &[u8], op: u8, start: usize) -> HashSet<(String, u8)> {
    trial::answers(input)
        .filter_map(|(piece, line)| {
            let symbol = first_symbol(piece, op, start)?;
            Some((kind_of_line(&line, symbol), symbol))
        })
        .collect()
}

fn require_in_both_polarities(found: &HashSet<(String, u8)>, kinds: &[&str]) {
    for kind in kinds {
        for symbol in [0, 1] {
            let wanted = (String::from(*kind), symbol);
            assert!(found.contains(&wanted), "{wanted:?}");
        }
    }
}

const REFUSED: [&str; 12] = [
    "no 1", "no 15", "no 2", "no 31", "no 32", "no 33", "no 4", "no 5", "no 6", "no 7", "no 8",
    "no 9",
];

#[test]
fn the_input_for_trial_offers_both_polarities_of_every_answer() {
    let found = kinds_of_lines(&make::trial_input(20260), OFFER, 5);
    for news in 0..=3 {
        let [clean, repaired] = [format!("clean {news}"), format!("repaired {news}")];
        require_in_both_polarities(&found, &[&clean, &repaired]);
    }
    require_in_both_polarities(&found, &REFUSED);
}

#[test]
fn the_input_for_trial_reads_both_polarities_of_every_answer() {
    let found = kinds_of_lines(&make::trial_input(20260), FROM_RELATIVE, 1);
    require_in_both_polarities(&found, &["ok", "no 12", "no 2"]);
}

/// The listing does not print the news.
#[test]
fn the_records_for_the_listing_have_both_polarities_of_every_news_and_number() {
    let mut records = Vec::new();
    make::write_listing(20260, 20_000, &mut records).unwrap();
    let mut offers = Vec::new();
    for record in records.chunks(RECORD_BYTES) {
        append(&mut offers, OFFER, record);
    }
    let found = kinds_of_lines(&offers, OFFER, 5);
    let clean = ["clean 0", "clean 1", "clean 2", "clean 3"];
    require_in_both_polarities(&found, &clean);
    require_in_both_polarities(&found, &["repaired 1", "repaired 2"]);
    require_in_both_polarities(&found, &REFUSED);
}
