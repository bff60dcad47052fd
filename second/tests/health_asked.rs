//! The made input asks for health with every mixture of M, l, the top bit of B and C, and
//! while a frame is not complete. The seed is that of the stored input.

use std::collections::{HashMap, HashSet};

use second::make;
use second::request::{pieces, Piece, Request, BLOCK, FRESH, HEALTH, OFFER, OTHER_STATION, RESET};
use second::station::card::ONE;
use second::station::reception::receive;
use second::station::Station;
use second::string::NavString;
use second::trial::answer_piece;
use second::trial::sites::Sites;
use second::words::kinds::{L_OF_STRING_3, SATELLITE};
use second::words::word::Word;

/// Places of B, l, n and M among the 26 words of a record.
const B: usize = 5;
const L: usize = 14;
const N: usize = 24;
const M: usize = 25;

/// A question for health, and what the station has to answer it with.
#[derive(Debug, PartialEq, Eq, Hash)]
struct Asked {
    record: Option<Flags>,
    /// C of the entry for n; n is the record's, or before there is one that of string 4.
    c: Option<i64>,
    /// l of the string 3 that was heard last.
    heard_l: Option<i64>,
    line: String,
}

#[derive(Clone, Copy, Debug, PartialEq, Eq, Hash)]
struct Flags {
    code_of_m: i64,
    l: i64,
    top_bit_of_b: i64,
}

/// The last string of each channel and m that was taken. A block's are passed over.
type Heard = HashMap<(u8, usize), NavString>;

fn flags_of(words: &[i64]) -> Flags {
    Flags {
        code_of_m: words[M],
        l: words[L],
        top_bit_of_b: words[B] >> 2,
    }
}

/// By the card that the channel belongs to.
fn asked(station: &Station, heard: &Heard, card: u8, channel: u8, line: String) -> Asked {
    let words = station.immediate(card, usize::from(channel)).ok();
    let words = words.map(|record| record.words.as_slice());
    let value_heard = |m: usize, word: &Word| {
        let string = heard.get(&(channel, m));
        string.map(|string| word.value_in(string))
    };
    let n = words.map(|words| words[N]).or(value_heard(4, &SATELLITE));
    let entry = n.and_then(|n| station.entry(card, n as usize).ok());
    Asked {
        record: words.map(flags_of),
        c: entry.map(|entry| entry.words()[0]),
        heard_l: value_heard(3, &L_OF_STRING_3),
        line,
    }
}

fn all_asked() -> HashSet<Asked> {
    let (mut sites, mut heard) = (Sites::default(), Heard::new());
    let mut found = HashSet::new();
    for piece in pieces(&make::trial_input(20260)) {
        let line = answer_piece(&mut sites, piece);
        let Piece::Whole(request) = piece else {
            continue;
        };
        let (card, Request { op, payload }) = request.asked_by().unwrap_or((ONE, request));
        match (op, payload) {
            (OFFER, [channel, _, _, _, _, symbols @ ..]) if line.starts_with("taken") => {
                let string = receive(symbols).unwrap().string;
                heard.insert((*channel, string.m()), string);
            }
            (RESET, [reset]) if line == "ok" => heard.retain(|(channel, _), _| channel != reset),
            (FRESH | OTHER_STATION, []) | (BLOCK, _) => heard.clear(),
            (HEALTH, [channel]) if line.starts_with("ok ") => {
                found.insert(asked(&sites.in_use, &heard, card, *channel, line));
            }
            _ => (),
        }
    }
    found
}

fn every_flags() -> Vec<Flags> {
    let mut every = Vec::new();
    for code_of_m in 0..4 {
        for (l, top_bit_of_b) in [(0, 0), (0, 1), (1, 0), (1, 1)] {
            every.push(Flags {
                code_of_m,
                l,
                top_bit_of_b,
            });
        }
    }
    every
}

/// 32 mixtures, each with one answer.
#[test]
fn every_mixture_is_asked_and_has_one_answer() {
    let found = all_asked();
    for flags in every_flags() {
        for c in [0, 1] {
            let lines: HashSet<&str> = found
                .iter()
                .filter(|asked| asked.record == Some(flags) && asked.c == Some(c))
                .map(|asked| asked.line.as_str())
                .collect();
            let is_unfit = flags.top_bit_of_b == 1 || (flags.l == 1 && flags.code_of_m != 0);
            let line = match !is_unfit && c == 1 {
                true => "ok 1",
                false => "ok 2",
            };
            assert_eq!(lines, HashSet::from([line]), "{flags:?}, C {c}");
        }
    }
}

/// String 4 has come, and the book has its satellite.
#[test]
fn health_is_asked_before_the_record_is_complete() {
    let found = all_asked();
    let is_early = |asked: &&Asked| asked.record.is_none() && asked.c == Some(1);
    assert!(found.iter().any(|asked| is_early(&asked)));
    for asked in found.iter().filter(is_early) {
        assert_eq!(asked.line, "ok 0");
    }
}

/// For every code of M and B still good: a later string 3 has the other l.
#[test]
fn health_is_asked_while_a_later_frame_with_another_l_is_not_complete() {
    let found = all_asked();
    let good_b = |flags: &Flags| flags.top_bit_of_b == 0;
    for flags in every_flags().into_iter().filter(good_b) {
        let is_late = |asked: &&Asked| {
            asked.record == Some(flags) && asked.c == Some(1) && asked.heard_l == Some(1 - flags.l)
        };
        assert!(found.iter().any(|asked| is_late(&asked)), "{flags:?}");
    }
}
