//! The made input mixes each cause of damage with every refusal that comes before it
//! or after it in the order of tests.

use std::collections::HashSet;

use second::hamming::{check, encode};
use second::refusal::Refusal;
use second::relative::{from_relative, to_relative};
use second::request::{pieces, Piece, Request, CHECK, OFFER, READ};
use second::string::{NavString, BYTES, PADDING};
use second::trial::sites::Sites;
use second::{make, trial};

/// 0 where the call is granted.
const GRANTED: u8 = 0;

/// A request with a damaged string: what it answers, and what it would answer with good
/// check bits.
#[derive(Debug, PartialEq, Eq, Hash)]
struct Mixture {
    op: u8,
    cause: u8,
    answered: u8,
    undamaged: u8,
}

/// The place of the string in a payload: after the room or the kind, or after channel
/// and epoch.
fn start_of_string(op: u8) -> Option<usize> {
    match op {
        CHECK | READ => Some(1),
        OFFER => Some(5),
        _ => None,
    }
}

/// The plain string, whatever its padding and the bytes after it.
fn plain(op: u8, bytes: &[u8; BYTES]) -> NavString {
    let mut bytes = *bytes;
    bytes[BYTES - 1] &= !PADDING;
    let string = NavString::from_bytes(&bytes).unwrap();
    match op {
        OFFER => from_relative(&string).0,
        _ => string,
    }
}

/// The number of the cause, and the payload with check bits that fit; padding and bytes
/// after the string stay.
fn damaged(Request { op, payload }: Request) -> Option<(u8, Vec<u8>)> {
    let start = start_of_string(op)?;
    let bytes = payload.get(start..)?.first_chunk()?;
    let string = plain(op, bytes);
    let Err(refusal @ Refusal::Damaged(_)) = check(&string) else {
        return None;
    };
    let mut mended = encode(&string);
    if op == OFFER {
        mended = to_relative(&mended).unwrap();
    }
    let mut other = payload.to_vec();
    other[start..start + BYTES].copy_from_slice(&mended.to_bytes());
    other[start + BYTES - 1] |= bytes[BYTES - 1] & PADDING;
    Some((refusal.number(), other))
}

fn number_in(line: &str) -> u8 {
    let Some(rest) = line.strip_prefix("no ") else {
        return GRANTED;
    };
    rest.split(' ').next().unwrap().parse().unwrap()
}

fn mixtures(input: &[u8]) -> HashSet<Mixture> {
    let mut sites = Sites::default();
    let mut found = HashSet::new();
    for piece in pieces(input) {
        let before = sites.clone();
        let answer = trial::answer_piece(&mut sites, piece);
        let Piece::Whole(request) = piece else {
            continue;
        };
        let Some((cause, payload)) = damaged(request) else {
            continue;
        };
        let op = request.op;
        let other = Piece::Whole(Request {
            op,
            payload: &payload,
        });
        found.insert(Mixture {
            op,
            cause,
            answered: number_in(&answer),
            undamaged: number_in(&trial::answer_piece(&mut before.clone(), other)),
        });
    }
    found
}

/// The seed is that of the stored input. IDLE after an offer is a repair's, so it comes
/// with no damage.
#[test]
fn each_cause_stands_between_the_refusals_before_and_after_it() {
    let found = mixtures(&make::trial_input(20260));
    let calls = [
        (CHECK, &[12, 2][..], &[4][..]),
        (READ, &[2], &[4, 5, 11, 10]),
        (OFFER, &[15, 2], &[5, 6, 7, 8, 9]),
    ];
    for (op, before, after) in calls {
        for cause in [31, 32, 33] {
            let earlier = before.iter().map(|&number| (number, number));
            let later = after.iter().map(|&number| (cause, number));
            for (answered, undamaged) in earlier.chain(later).chain([(cause, GRANTED)]) {
                let mixture = Mixture {
                    op,
                    cause,
                    answered,
                    undamaged,
                };
                assert!(found.contains(&mixture), "{mixture:?}");
            }
        }
    }
}
