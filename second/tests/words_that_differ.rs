//! The made input would show an exchange of any two words of a string.

use second::request::{number_of, values_from_bytes, Piece, Request, READ, WRITE};
use second::words::kinds::KINDS;
use second::{make, trial};

/// Op, kind and words of a request that the reader or the encoder grants.
fn granted(piece: Piece, line: &str) -> Option<(u8, u8, Vec<i64>)> {
    let Piece::Whole(Request { op, payload }) = piece else {
        return None;
    };
    let line = line.strip_prefix("ok ")?;
    match op {
        READ => Some((op, payload[0], words_read(line))),
        WRITE => Some((op, payload[1], values_from_bytes(&payload[3..]))),
        _ => None,
    }
}

/// What follows m.
fn words_read(line: &str) -> Vec<i64> {
    let words = line.split(' ').skip(1);
    words.map(|word| word.parse().unwrap()).collect()
}

fn all_differ(words: &[i64]) -> bool {
    let mut values = words.to_vec();
    values.sort();
    values.dedup();
    values.len() == words.len()
}

/// In ten strings of each kind at least, read and written, each word has a value of
/// its own.
#[test]
fn no_two_words_have_the_same_value() {
    let input = make::trial_input(20260);
    let requests: Vec<(u8, u8, Vec<i64>)> = trial::answers(&input)
        .filter_map(|(piece, line)| granted(piece, &line))
        .collect();
    for kind in KINDS {
        for asked in [READ, WRITE] {
            let shows = |(op, number, words): &&(u8, u8, Vec<i64>)| {
                *op == asked && *number == number_of(kind) && all_differ(words)
            };
            let count = requests.iter().filter(shows).count();
            assert!(count >= 10, "op {asked}, {}: {count}", kind.name);
        }
    }
}
