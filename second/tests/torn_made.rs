//! The made torn files, and the made requests for salvage. The seed is that of the stored
//! inputs.

use std::collections::HashSet;
use std::ops::Range;

use second::request::{Piece, Request, SALVAGE};
use second::salvage::{items, salvage, Item};
use second::{make, trial};

const WINDOW: usize = 262_144;
const TWO_LONGEST: usize = 131_076;

fn torn(seed: u64, count: u64) -> Vec<u8> {
    let mut file = Vec::new();
    make::write_torn(seed, count, &mut file).unwrap();
    file
}

#[test]
fn a_torn_file_follows_from_its_seed_and_has_its_length() {
    for count in [0, 1, 2, 1000, 100_000] {
        assert_eq!(torn(5, count).len() as u64, count);
    }
    assert_eq!(torn(5, 100_000), torn(5, 100_000));
    assert_ne!(torn(5, 100_000), torn(6, 100_000));
    assert!(torn(5, 200_000).starts_with(&torn(5, 100_000)));
}

/// Tags of the kept fields, and the lengths of fields and stretches.
#[test]
fn a_torn_file_has_long_remarks_and_long_stretches() {
    let file = torn(20260, 20_000_000);
    let mut tags = [0; 4];
    let (mut long_remarks, mut long_stretches, mut stretches) = (0, 0, 0);
    for item in items(&file) {
        match item {
            Item::Field(bytes) => {
                tags[usize::from(file[bytes.start])] += 1;
                long_remarks += u32::from(bytes.len() > 60_000);
            }
            Item::Stretch(bytes) => {
                stretches += 1;
                long_stretches += u32::from(bytes.len() > 300_000);
            }
        }
    }
    assert!(tags[1] > 100_000 && tags[2] > 1_000 && tags[3] > 1_000);
    assert!(stretches > 1_000, "{stretches}");
    assert!(long_remarks > 50, "{long_remarks}");
    assert!(long_stretches > 3, "{long_stretches}");
}

fn fields_and_stretches(file: &[u8]) -> (Vec<Range<usize>>, Vec<Range<usize>>) {
    let (mut fields, mut stretches) = (Vec::new(), Vec::new());
    for item in items(file) {
        match item {
            Item::Field(bytes) => fields.push(bytes),
            Item::Stretch(bytes) => stretches.push(bytes),
        }
    }
    (fields, stretches)
}

fn lies_across(place: usize) -> impl Fn(&&Range<usize>) -> bool {
    move |bytes| bytes.start < place && place < bytes.end
}

#[test]
fn the_stored_file_has_something_across_each_edge() {
    let file = make::torn_edges(20260);
    assert!((400_000..=710_000).contains(&file.len()), "{}", file.len());
    let (fields, stretches) = fields_and_stretches(&file);
    assert!(fields.len() > 2_000, "{}", fields.len());
    assert!(stretches.len() > 100, "{}", stretches.len());
    // The work goes on with the two longest fields, the last byte of which is in the second
    // window; a stretch follows.
    let last_place = WINDOW - TWO_LONGEST;
    let pair = [last_place + 1, last_place + 1 + TWO_LONGEST / 2];
    for first in pair {
        assert!(fields.contains(&(first..first + TWO_LONGEST / 2)));
    }
    assert!(stretches.iter().any(|bytes| bytes.end == pair[0]));
    assert!(stretches.iter().any(|bytes| bytes.start == WINDOW + 1));
    assert!(fields.iter().any(|bytes| lies_across(WINDOW)(&bytes)));
    // A stretch longer than a window, across the second edge.
    let across = stretches.iter().find(lies_across(2 * WINDOW)).unwrap();
    assert!(across.len() > WINDOW);
    assert!(lies_across(WINDOW + last_place)(&across));
    // One remark ends the file; a stretch stands before it.
    let last = fields.iter().find(lies_across(2 * WINDOW + last_place));
    let last = last.unwrap();
    assert_eq!((last.len(), last.end), (60_003, file.len()));
    assert!(stretches.iter().any(|bytes| bytes.end == last.start));
}

/// The file, the rooms and the line of each request.
fn requests() -> Vec<(Vec<u8>, String)> {
    let input = make::trial_input(20260);
    let answered = trial::answers(&input).filter_map(|(piece, line)| match piece {
        Piece::Whole(Request { op, payload }) if op == SALVAGE => Some((payload.to_vec(), line)),
        _ => None,
    });
    answered.collect()
}

#[test]
fn requests_for_salvage_have_every_kind_of_line() {
    let requests = requests();
    let count = requests.len();
    assert!((2_000..5_000).contains(&count), "{count}");
    let lines = requests.iter().map(|(_, line)| line.as_str());
    let kinds: HashSet<String> = lines.map(kind_of).collect();
    for kind in [
        "ok whole",
        "ok none",
        "ok none 1",
        "ok some 1",
        "ok some 2",
        "ok some 3",
        "44 none",
        "44 none 1",
        "44 some",
        "44 some 1",
        "44 some 2",
        "45 none",
        "45 some",
        "45 some 1",
        "45 some 2",
        "bad 17",
    ] {
        assert!(kinds.contains(kind), "{kind}: {kinds:?}");
    }
}

/// How it ended, whether anything was kept, and how many stretches there are.
fn kind_of(line: &str) -> String {
    let parts: Vec<&str> = line.split(' ').collect();
    let (end, rest) = match parts.as_slice() {
        ["ok", rest @ ..] => ("ok", rest),
        ["no", number, _, rest @ ..] => (*number, rest),
        _ => return String::from(line),
    };
    let kept = match (rest[0], end, rest.len()) {
        ("-", ..) => "none",
        (_, "ok", 1) => "whole",
        _ => "some",
    };
    match rest.len() - 1 {
        0 => format!("{end} {kept}"),
        count => format!("{end} {kept} {count}"),
    }
}

/// One file is there with each of its bytes removed, and in all its lengths.
#[test]
fn a_byte_is_removed_at_every_place_and_a_file_cut_at_every_byte() {
    let files: HashSet<Vec<u8>> = requests()
        .into_iter()
        .filter_map(|(payload, _)| payload.get(2..).map(<[u8]>::to_vec))
        .collect();
    let is_there = |file: &[u8]| files.contains(file);
    let without = |file: &Vec<u8>, place: usize| [&file[..place], &file[place + 1..]].concat();
    let is_torn_everywhere = |file: &&Vec<u8>| {
        file.len() > 30
            && salvage(file).skipped.is_empty()
            && (0..file.len()).all(|place| is_there(&without(file, place)))
            && (0..file.len()).all(|place| is_there(&file[..place]) && is_there(&file[place..]))
    };
    assert!(files.iter().any(|file| is_torn_everywhere(&file)));
    assert!(files.iter().any(|file| file.len() == 96));
}
