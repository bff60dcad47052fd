//! The block reader: tags, lengths, places, and its refusals "in the order 43, 41, 42".

use second::block::{fields, Field};
use second::known::B;
use second::listing::Record;
use second::refusal::Refusal;

/// Lengths that are right for one tag, and others; 256 and 4,096 are 1 and 16 with their
/// bytes exchanged.
const LENGTHS: [usize; 12] = [0, 1, 2, 3, 15, 16, 17, 19, 255, 256, 257, 4096];

/// A field that says `length` and brings `left` bytes.
fn bytes_of(tag: u8, length: usize, left: usize) -> Vec<u8> {
    let length = (length as u16).to_be_bytes();
    let header = [tag, length[0], length[1]];
    [&header, &vec![tag; left][..]].concat()
}

/// The number of the first refusal and its place.
fn refusal(block: &[u8]) -> Option<(u8, usize)> {
    fields(block).find_map(|field| match field {
        Err(refusal @ Refusal::Field { place, .. }) => Some((refusal.number(), place)),
        Err(other) => panic!("{other:?}"),
        Ok(_) => None,
    })
}

/// What 02 says, test by test.
fn expected(tag: u8, length: usize, left: usize) -> Option<u8> {
    let is_inside = left < length;
    let is_unknown = !(1..=3).contains(&tag);
    let is_wrong_length = match tag {
        1 => length != 16,
        2 => length != 1,
        _ => false,
    };
    let tests = [(is_inside, 43), (is_unknown, 41), (is_wrong_length, 42)];
    let (_, number) = tests.into_iter().find(|(is_met, _)| *is_met)?;
    Some(number)
}

#[test]
fn every_tag_with_every_length_whole_and_cut() {
    for tag in 0..=255 {
        for length in LENGTHS {
            for missing in [0, 1, length] {
                let left = length.saturating_sub(missing);
                let found = refusal(&bytes_of(tag, length, left));
                let expected = expected(tag, length, left).map(|number| (number, 0));
                assert_eq!(found, expected, "tag {tag}, {left} of {length}");
            }
        }
    }
}

/// The three in turn: what comes first hides the rest.
#[test]
fn a_field_that_is_cut_unknown_and_of_no_right_length() {
    assert_eq!(refusal(&[9, 0, 2, 0]), Some((43, 0)));
    assert_eq!(refusal(&[2, 0, 2, 0]), Some((43, 0)));
    assert_eq!(refusal(&[9, 0, 2, 0, 0]), Some((41, 0)));
    assert_eq!(refusal(&[2, 0, 2, 0, 0]), Some((42, 0)));
    assert_eq!(refusal(&[2, 0, 1, 0]), None);
}

/// "Fewer than three bytes left", whatever the tag.
#[test]
fn one_byte_and_two_bytes_are_43() {
    for tag in 0..=255 {
        assert_eq!(refusal(&[tag]), Some((43, 0)));
        assert_eq!(refusal(&[tag, 0]), Some((43, 0)));
    }
    assert_eq!(refusal(&[]), None);
}

/// An offer, a reset, a remark and the reset of a channel that is none.
fn good_block() -> Vec<u8> {
    let offer = [&[1, 0, 16, 7, 1, 2, 3, 4], &B[..]].concat();
    let others = [2, 0, 1, 9, 3, 0, 2, 2, 0, 2, 0, 1, 255];
    [&offer, &others[..]].concat()
}

#[test]
fn fields_come_in_the_order_written() {
    let record = Record {
        channel: 7,
        epoch: 0x0102_0304,
        symbols: B,
    };
    let expected = [
        Ok(Field::Offer(record)),
        Ok(Field::Reset { channel: 9 }),
        Ok(Field::Remark),
        Ok(Field::Reset { channel: 255 }),
    ];
    assert_eq!(fields(&good_block()).collect::<Vec<_>>(), expected);
}

/// The places of the four fields and of the end.
const PLACES: [usize; 5] = [0, 19, 23, 28, 32];

#[test]
fn a_block_cut_within_a_field_names_the_place_of_that_field() {
    let block = good_block();
    for length in 0..=block.len() {
        let whole = PLACES.iter().filter(|&&place| place <= length).count() - 1;
        let found: Vec<_> = fields(&block[..length]).collect();
        let is_cut = !PLACES.contains(&length);
        let expected = is_cut.then_some((43, PLACES[whole]));
        assert_eq!(refusal(&block[..length]), expected, "{length} bytes");
        assert_eq!(found.len(), whole + usize::from(is_cut));
    }
}

#[test]
fn a_refused_field_names_the_place_of_its_tag_and_ends_the_block() {
    for place in PLACES {
        for (refused, number) in [(&[0, 0, 0][..], 41), (&[2, 0, 0], 42), (&[3, 255, 255], 43)] {
            let block = good_block();
            let (before, after) = block.split_at(place);
            let block = [before, refused, after].concat();
            assert_eq!(refusal(&block), Some((number, place)));
            let count = PLACES.iter().filter(|&&other| other < place).count();
            assert_eq!(fields(&block).count(), count + 1);
        }
    }
}

/// 70,000 bytes of remarks, and then half a field.
#[test]
fn places_go_past_what_two_bytes_can_count() {
    let remark = [&[3, 0x88, 0xB5], &[0; 0x88B5][..]].concat();
    let block = [&remark[..], &remark, &[1, 0]].concat();
    assert_eq!(refusal(&block), Some((43, 2 * (3 + 0x88B5))));
}
