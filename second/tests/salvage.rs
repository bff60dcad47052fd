//! Salvage: "two whole good fields follow one another, or one whole good field ends the
//! file", what is kept, what is skipped, and where there is no room.

use std::ops::Range;

use second::make;
use second::random::SplitMix64;
use second::refusal::{Refusal, Room};
use second::salvage::{salvage, salvage_within, Rooms, Salvaged};

/// The bytes of the field here, if a block would not be refused.
fn size_at(file: &[u8], place: usize) -> Option<usize> {
    let header = file.get(place..place + 3)?;
    let size = 3 + usize::from(header[1]) * 256 + usize::from(header[2]);
    let is_good = match header[0] {
        1 => size == 19,
        2 => size == 4,
        tag => tag == 3,
    };
    (is_good && place + size <= file.len()).then_some(size)
}

/// The paper's condition, place by place.
fn can_go_on(file: &[u8], place: usize) -> bool {
    let Some(size) = size_at(file, place) else {
        return false;
    };
    place + size == file.len() || size_at(file, place + size).is_some()
}

/// By the paper's words, with as much room as it takes: the kept bytes and the stretches.
fn expected(file: &[u8]) -> (Vec<u8>, Vec<Range<usize>>) {
    let (mut kept, mut skipped) = (Vec::new(), Vec::new());
    let mut place = 0;
    while place < file.len() {
        if let Some(size) = size_at(file, place) {
            kept.extend(&file[place..place + size]);
            place += size;
            continue;
        }
        let first = place;
        place += 1;
        while place < file.len() && !can_go_on(file, place) {
            place += 1;
        }
        skipped.push(first..place);
    }
    (kept, skipped)
}

/// Few tags and lengths, so that fields come about.
fn small_file(random: &mut SplitMix64) -> Vec<u8> {
    let length = random.below(40);
    (0..length)
        .map(|_| random.one_of(&[0, 0, 0, 1, 2, 3, 3, 4]))
        .collect()
}

fn torn_file(seed: u64, count: u64) -> Vec<u8> {
    let mut file = Vec::new();
    make::write_torn(seed, count, &mut file).unwrap();
    file
}

/// First byte and count, as the list has them.
type Stretch = (usize, usize);

fn ranges(stretches: &[Stretch]) -> Vec<Range<usize>> {
    let stretches = stretches.iter();
    stretches
        .map(|&(first, count)| first..first + count)
        .collect()
}

/// Each file with what is kept of it and what is skipped.
fn require(cases: &[(&[u8], &[u8], &[Stretch])]) {
    for (file, kept, skipped) in cases {
        let expected = Salvaged {
            kept: kept.to_vec(),
            skipped: ranges(skipped),
            end: Ok(()),
        };
        assert_eq!(salvage(file), expected, "{file:?}");
    }
}

#[test]
fn an_undamaged_file_is_copied_whole() {
    let offer = [&[1, 0, 16][..], &[9; 16]].concat();
    let files = [
        vec![],
        vec![3, 0, 0],
        vec![3, 0, 0, 3, 0, 0],
        vec![2, 0, 1, 255],
        [&offer[..], &[3, 0, 2, 1, 0], &[2, 0, 1, 7], &offer].concat(),
        [&[3, 255, 255][..], &[1; 65_535], &offer].concat(),
    ];
    for file in files {
        require(&[(&file, &file, &[])]);
    }
}

#[test]
fn one_good_field_is_not_enough_inside_the_file() {
    require(&[
        // A reset with no field behind it; then one with a remark behind it.
        (
            &[0, 2, 0, 1, 9, 0, 2, 0, 1, 9, 3, 0, 0, 7],
            &[2, 0, 1, 9, 3, 0, 0],
            &[(0, 6), (13, 1)],
        ),
        // The field behind it is cut.
        (&[0, 2, 0, 1, 9, 1, 0], &[], &[(0, 7)]),
        (&[0, 2, 0, 1, 9, 3, 0, 1], &[], &[(0, 8)]),
        // It ends the file.
        (&[0, 2, 0, 1, 9], &[2, 0, 1, 9], &[(0, 1)]),
        // At a place that is not refused one is enough.
        (&[2, 0, 1, 9, 0, 0], &[2, 0, 1, 9], &[(4, 2)]),
    ]);
}

#[test]
fn the_search_begins_one_byte_after_the_refused_place() {
    require(&[
        (&[3, 3, 0, 0, 3, 0, 0], &[3, 0, 0, 3, 0, 0], &[(0, 1)]),
        // A field of wrong length is not skipped as a whole.
        (&[2, 0, 3, 3, 0, 0], &[3, 0, 0], &[(0, 3)]),
        (
            &[4, 0, 4, 2, 0, 1, 7, 3, 0, 0],
            &[2, 0, 1, 7, 3, 0, 0],
            &[(0, 3)],
        ),
        // The length of a refused remark is the tag of the next.
        (&[3, 255, 3, 0, 0], &[3, 0, 0], &[(0, 2)]),
    ]);
}

#[test]
fn a_file_that_ends_in_the_middle_of_a_field() {
    require(&[
        (&[1, 0], &[], &[(0, 2)]),
        (&[2, 0, 1, 9, 1, 0, 16, 5, 5], &[2, 0, 1, 9], &[(4, 5)]),
        (&[2, 0, 1, 9, 3], &[2, 0, 1, 9], &[(4, 1)]),
        // What is left of an offer holds a reset that ends the file.
        (
            &[3, 0, 0, 1, 0, 16, 2, 0, 1, 9],
            &[3, 0, 0, 2, 0, 1, 9],
            &[(3, 3)],
        ),
    ]);
}

#[test]
fn remarks_of_no_byte_and_of_more_than_the_file_has() {
    require(&[
        (&[0, 3, 0, 0], &[3, 0, 0], &[(0, 1)]),
        (&[0, 3, 0, 0, 0], &[], &[(0, 5)]),
        (&[3, 0, 0, 0, 3, 0, 0], &[3, 0, 0, 3, 0, 0], &[(3, 1)]),
        (&[3, 0, 5, 1, 1, 1, 1], &[], &[(0, 7)]),
        (&[3, 255, 255, 3, 0, 0], &[3, 0, 0], &[(0, 3)]),
    ]);
}

#[test]
fn files_with_few_tags_and_lengths_are_read_by_the_papers_words() {
    let mut random = SplitMix64::new(8);
    let mut with_both = 0;
    for _ in 0..200_000 {
        let file = small_file(&mut random);
        let salvaged = salvage(&file);
        let (kept, skipped) = expected(&file);
        with_both += u32::from(!kept.is_empty() && skipped.len() > 1);
        assert_eq!(
            (salvaged.kept, salvaged.skipped),
            (kept, skipped),
            "{file:?}"
        );
        assert_eq!(salvaged.end, Ok(()));
    }
    assert!(with_both > 10_000, "{with_both}");
}

#[test]
fn torn_files_are_read_by_the_papers_words() {
    for seed in 0..40 {
        let file = torn_file(seed, 300_000);
        let salvaged = salvage(&file);
        assert_eq!((salvaged.kept, salvaged.skipped), expected(&file));
    }
}

/// "Kept and skipped bytes together are the input, each byte once and in order." Between
/// two stretches there are kept bytes.
#[test]
fn kept_and_skipped_bytes_together_are_the_input() {
    let mut random = SplitMix64::new(9);
    let small = (0..50_000).map(|_| small_file(&mut random));
    for file in small.chain([torn_file(1, 2_000_000), make::torn_edges(2)]) {
        let salvaged = salvage(&file);
        let mut kept = salvaged.kept.as_slice();
        let mut together: Vec<u8> = Vec::new();
        for stretch in &salvaged.skipped {
            let count = stretch.start - together.len();
            assert!(count > 0 || together.is_empty());
            together.extend(kept.split_off(..count).unwrap());
            together.extend(&file[stretch.clone()]);
        }
        together.extend(kept);
        assert_eq!(together, file);
    }
}

/// What is kept of a torn file is a whole one.
#[test]
fn salvage_of_what_is_kept_skips_nothing() {
    let kept = salvage(&torn_file(3, 1_000_000)).kept;
    require(&[(&kept, &kept, &[])]);
}

fn within(output: usize, list: usize, file: &[u8]) -> Salvaged {
    salvage_within(Rooms { output, list }, file)
}

/// Two bytes, a reset, a remark, three bytes, a reset.
const TORN: [u8; 16] = [9, 9, 2, 0, 1, 5, 3, 0, 0, 7, 7, 7, 2, 0, 1, 6];

#[test]
fn without_room_it_stops_before_the_item_and_names_its_byte() {
    let (first, second) = ((0, 2), (9, 3));
    for (output, list, kept, skipped, room, byte) in [
        (11, 0, 0, &[][..], Room::List, 0),
        (0, 2, 0, &[first], Room::Output, 2),
        (3, 2, 0, &[first], Room::Output, 2),
        (4, 2, 4, &[first], Room::Output, 6),
        (6, 2, 4, &[first], Room::Output, 6),
        (7, 1, 7, &[first], Room::List, 9),
        (7, 2, 7, &[first, second], Room::Output, 12),
        (10, 2, 7, &[first, second], Room::Output, 12),
    ] {
        let expected = Salvaged {
            kept: [2, 0, 1, 5, 3, 0, 0][..kept].to_vec(),
            skipped: ranges(skipped),
            end: Err(Refusal::Full { room, byte }),
        };
        assert_eq!(within(output, list, &TORN), expected);
    }
    assert_eq!(within(11, 2, &TORN), salvage(&TORN));
    assert_eq!(within(1000, 1000, &TORN), salvage(&TORN));
}

/// A field that has no room is not passed over for a shorter one behind it.
#[test]
fn what_stands_behind_an_item_without_room_is_not_looked_at() {
    let file = [2, 0, 1, 5, 3, 0, 0, 9];
    let full = |room, byte| Err(Refusal::Full { room, byte });
    assert_eq!(within(3, 5, &file).end, full(Room::Output, 0));
    assert_eq!(within(7, 0, &file).end, full(Room::List, 7));
    assert!(within(3, 5, &file).kept.is_empty());
    assert!(within(3, 5, &file).skipped.is_empty());
}

/// Every room: what is written is the beginning of what plenty of room gives, and the byte
/// comes after it.
#[test]
fn a_refusal_keeps_what_went_before() {
    let mut random = SplitMix64::new(10);
    for _ in 0..500 {
        let file = small_file(&mut random);
        let whole = salvage(&file);
        for output in 0..=whole.kept.len() {
            for list in 0..=whole.skipped.len() {
                let some = within(output, list, &file);
                assert!(whole.kept.starts_with(&some.kept));
                assert!(whole.skipped.starts_with(&some.skipped));
                let done = some.kept.len() + some.skipped.iter().map(Range::len).sum::<usize>();
                match some.end {
                    Ok(()) => assert_eq!(done, file.len()),
                    Err(Refusal::Full { byte, .. }) => assert_eq!(done, byte),
                    Err(other) => panic!("{other:?}"),
                }
                let is_whole = (output, list) == (whole.kept.len(), whole.skipped.len());
                assert_eq!(some.end.is_ok(), is_whole);
            }
        }
    }
}

#[test]
fn the_list_has_a_line_for_each_stretch() {
    assert_eq!(salvage(&TORN).list(), "0 2\n9 3\n");
    assert_eq!(salvage(&[]).list(), "");
}

#[test]
fn records_are_those_of_the_kept_offers() {
    let offer = |byte: u8| [&[1, 0, 16], &[byte; 16][..]].concat();
    let in_remark = [&[3, 0, 19][..], &offer(8)].concat();
    let (six, seven) = (offer(6), offer(7));
    let file = [
        &six[..],
        &[2, 0, 1, 5],
        &in_remark,
        &[9],
        &seven[..18],
        &seven,
    ]
    .concat();
    let records = [[6; 16], [7; 16]].concat();
    assert_eq!(salvage(&file).records(), records);
}
