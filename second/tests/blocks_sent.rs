//! The made inputs hold blocks of all kinds. The seeds and the count are those of the stored
//! inputs.

use std::collections::{HashMap, HashSet};

use second::request::{
    append, whole_requests, Piece, Request, BLOCK, ENTRY, FRESH, HEALTH, IMMEDIATE, JOIN, OFFER,
    OTHER_STATION, RESET, SUMMARY, TALLIES,
};
use second::{make, trial};

/// A block and its lines.
type Answered = (Vec<u8>, Vec<String>);

fn made_blocks() -> Vec<Answered> {
    let input = make::trial_input(20260);
    let block_in = |(piece, answer): (Piece, String)| match piece {
        Piece::Whole(Request { op, payload }) if op == BLOCK => {
            let lines = answer.lines().map(String::from);
            Some((payload.to_vec(), lines.collect()))
        }
        _ => None,
    };
    trial::answers(&input).filter_map(block_in).collect()
}

/// The field at a place, if it is whole: its tag and its content.
fn field_at(block: &[u8], place: usize) -> Option<(u8, &[u8])> {
    let &[tag, high, low] = block.get(place..place + 3)? else {
        return None;
    };
    let length = usize::from(high) * 256 + usize::from(low);
    let content = block.get(place + 3..place + 3 + length)?;
    Some((tag, content))
}

/// The fields of a block that are whole, whatever their tags.
fn whole_fields(block: &[u8]) -> Vec<(u8, &[u8])> {
    let mut place = 0;
    let mut fields = Vec::new();
    while let Some((tag, content)) = field_at(block, place) {
        fields.push((tag, content));
        place += 3 + content.len();
    }
    fields
}

/// The number and the place of a block's last line; none for `end`.
fn refusal_in(lines: &[String]) -> Option<(u8, usize)> {
    let rest = lines.last().unwrap().strip_prefix("no ")?;
    let (number, place) = rest.split_once(' ').unwrap();
    Some((number.parse().unwrap(), place.parse().unwrap()))
}

/// Every tag that is refused, by its number.
fn refused_tags(blocks: &[Answered]) -> HashMap<u8, HashSet<u8>> {
    let mut tags: HashMap<u8, HashSet<u8>> = HashMap::new();
    for (block, lines) in blocks {
        if let Some((number, place)) = refusal_in(lines) {
            tags.entry(number).or_default().insert(block[place]);
        }
    }
    tags
}

#[test]
fn every_tag_is_refused_where_it_can_be() {
    let tags = refused_tags(&made_blocks());
    assert_eq!(tags[&43], (0..=255).collect());
    assert_eq!(
        tags[&41],
        (0..=255).filter(|tag| !(1..=3).contains(tag)).collect()
    );
    assert_eq!(tags[&42], HashSet::from([1, 2]));
    assert_eq!(tags.len(), 3);
}

/// A field that is not whole is 43, a whole one 42 where its tag is known and else 41.
#[test]
fn the_numbers_are_those_of_the_fields_they_name() {
    for (block, lines) in made_blocks() {
        let Some((number, place)) = refusal_in(&lines) else {
            continue;
        };
        let expected = match field_at(&block, place) {
            None => 43,
            Some((1..=3, _)) => 42,
            Some(_) => 41,
        };
        assert_eq!(number, expected, "{lines:?}");
    }
}

/// One block is there in all its lengths.
#[test]
fn a_block_is_cut_at_every_byte() {
    let blocks: HashSet<Vec<u8>> = made_blocks().into_iter().map(|(block, _)| block).collect();
    let is_cut_everywhere = |block: &&Vec<u8>| {
        let mut lengths = 0..block.len();
        whole_fields(block).len() >= 6 && lengths.all(|length| blocks.contains(&block[..length]))
    };
    assert!(blocks.iter().any(|block| is_cut_everywhere(&block)));
}

#[test]
fn known_tags_have_right_and_wrong_lengths() {
    let mut lengths: HashMap<u8, HashSet<usize>> = HashMap::new();
    for (block, _) in &made_blocks() {
        for (tag, content) in whole_fields(block) {
            lengths.entry(tag).or_default().insert(content.len());
        }
    }
    for tag in 1..=3 {
        let wanted = (0..=20).chain([255, 256, 257, 4096]);
        for length in wanted {
            assert!(lengths[&tag].contains(&length), "tag {tag}, {length}");
        }
    }
    assert!(lengths[&3].contains(&60_000));
}

/// In one block every refusal of an offer has a string that is taken after it, and the
/// block comes to its end.
#[test]
fn refused_calls_stop_nothing() {
    let blocks = made_blocks();
    let goes_on_after = |lines: &[String], number: u8| {
        let refused = format!("no {number}");
        let mut neighbours = lines.windows(2);
        neighbours.any(|pair| pair[0] == refused && pair[1].starts_with("taken"))
    };
    let goes_on_after_all = |lines: &[String]| {
        let mut numbers = [15, 2, 31, 32, 33].into_iter().chain(4..=9);
        numbers.all(|number| goes_on_after(lines, number))
    };
    let ends = |lines: &[String]| lines.last().unwrap() == "end";
    assert!(blocks
        .iter()
        .any(|(_, lines)| ends(lines) && goes_on_after_all(lines)));
}

/// Offers and resets of channels above 23, resets of others, every news.
#[test]
fn calls_of_every_kind_are_in_blocks() {
    let blocks = made_blocks();
    let fields = blocks.iter().flat_map(|(block, _)| whole_fields(block));
    let calls: HashSet<(u8, bool)> = fields
        .filter(|(tag, content)| matches!((tag, content.len()), (1, 16) | (2, 1)))
        .map(|(tag, content)| (tag, content[0] > 23))
        .collect();
    assert_eq!(calls.len(), 4);
    let lines = blocks.iter().flat_map(|(_, lines)| lines);
    let news: HashSet<&str> = lines
        .filter_map(|line| line.strip_prefix("taken "))
        .map(|line| line.split(' ').nth(2).unwrap())
        .collect();
    assert_eq!(news, HashSet::from(["0", "1", "2", "3"]));
}

/// Before the next call the station is asked, so that each block's station is seen. Some
/// blocks follow one another; behind some the stations change places, or books are joined.
#[test]
fn blocks_are_followed_by_queries() {
    let input = make::trial_input(20260);
    let asked = |request: Request| request.asked_by().map_or(request.op, |(_, asked)| asked.op);
    let ops: Vec<u8> = whole_requests(&input).map(asked).collect();
    let after_blocks = ops.windows(2).filter(|pair| pair[0] == BLOCK);
    let asked: HashSet<u8> = after_blocks.map(|pair| pair[1]).collect();
    let of_sites = [ENTRY, OTHER_STATION, JOIN];
    let expected = [&[BLOCK, IMMEDIATE, TALLIES, SUMMARY], &of_sites[..]].concat();
    assert!(asked.is_subset(&HashSet::from_iter(expected)));
    for op in [ENTRY, HEALTH] {
        let until_a_call = ops.split(|op| [OFFER, RESET, FRESH].contains(op));
        let mut after_a_block = until_a_call.filter(|ops| ops.contains(&BLOCK));
        assert!(after_a_block.any(|ops| ops.contains(&op)));
    }
}

#[test]
fn the_longest_payload_is_a_block() {
    let blocks = made_blocks();
    let longest = blocks.iter().max_by_key(|(block, _)| block.len()).unwrap();
    assert_eq!(longest.0.len(), 65_535);
    assert_eq!(longest.1.last().unwrap(), "end");
}

#[test]
fn the_made_block_follows_from_its_seed_and_ends_with_a_refused_field() {
    let block = make::block(20260, 4000);
    assert_eq!(block, make::block(20260, 4000));
    assert_ne!(block, make::block(20261, 4000));
    let lines = trial::answer_block(&block);
    let lines: Vec<String> = lines.lines().map(String::from).collect();
    let (number, place) = refusal_in(&lines).unwrap();
    assert_eq!(number, 42);
    assert!(place > 65_535);
    let fields = whole_fields(&block[..place]);
    assert_eq!(fields.len(), 4000);
    let remarks = fields.iter().filter(|(tag, _)| *tag == 3).count();
    assert!(remarks > 100);
    assert_eq!(lines.len(), 4000 - remarks + 1);
    assert!(whole_fields(&block[place..]).len() > 10);
    for wanted in ["ok", "no 1", "no 15", "no 2", "no 9"] {
        assert!(lines.iter().any(|line| line == wanted), "{wanted}");
    }
}

/// Where a block fits into a request, `trial` prints the same.
#[test]
fn a_block_alone_prints_what_trial_prints_on_a_fresh_station() {
    for count in [0, 1, 10, 1000] {
        let block = make::block(7, count);
        let first: Vec<u8> = block.iter().copied().take(65_535).collect();
        let mut input = Vec::new();
        append(&mut input, BLOCK, &first);
        assert_eq!(trial::answer_block(&first), trial::answer_input(&input));
    }
    assert_eq!(trial::answer_block(&[]), "end\n");
}
