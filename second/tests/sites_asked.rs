//! The made input joins books that clash in every way, and asks for all that comes of it. The
//! seed is that of the stored input.

use std::collections::{HashMap, HashSet};

use second::make;
use second::request::{
    whole_requests, Piece, Request, ENTRY, ENTRY_WORDS, HEALTH, IMMEDIATE, JOIN, OTHER_STATION,
    SUMMARY, TALLIES,
};
use second::station::book::Entry;
use second::station::card::{ONE, TWO};
use second::station::{Health, Station};
use second::trial::answer_piece;
use second::trial::sites::Sites;

type Book = Vec<Option<Entry>>;

fn book_of(station: &Station) -> Book {
    (1..=24).map(|slot| station.entry(ONE, slot).ok()).collect()
}

/// A join with the stations before and after it, and its line.
struct Joined {
    before: Sites,
    after: Sites,
    line: String,
}

fn all_joined() -> Vec<Joined> {
    let mut sites = Sites::default();
    let mut found = Vec::new();
    for request in whole_requests(&make::trial_input(20260)) {
        let before = (request.op == JOIN).then(|| sites.clone());
        let line = answer_piece(&mut sites, Piece::Whole(request));
        match before {
            Some(before) if request.payload.is_empty() => found.push(Joined {
                before,
                after: sites.clone(),
                line,
            }),
            _ => (),
        }
    }
    found
}

impl Joined {
    /// Own entry, the other's, and what has come of them, by slots.
    fn slots(&self) -> Vec<[Option<Entry>; 3]> {
        let stations = [
            &self.before.in_use,
            &self.before.set_aside,
            &self.after.in_use,
        ];
        let [own, others, joined] = stations.map(book_of);
        (0..24)
            .map(|index| [own[index], others[index], joined[index]])
            .collect()
    }

    fn is_unchanged(&self) -> bool {
        self.before == self.after
    }
}

fn is_empty(station: &Station) -> bool {
    book_of(station).iter().all(Option::is_none)
}

/// The first bit that differs, of two entries of one day: whether it is of the odd half, and its
/// number.
fn first_bit(own: Entry, others: Entry) -> Option<(bool, usize)> {
    let highest = |difference: u128| difference.checked_ilog2().map(|weight| weight as usize);
    if own.day != others.day {
        return None;
    }
    match highest(own.even ^ others.even) {
        Some(weight) => Some((false, 9 + weight)),
        None => highest(own.odd ^ others.odd).map(|weight| (true, 10 + weight)),
    }
}

/// All bits of an entry but those of its slot, and either site has the greater one.
#[test]
fn every_bit_of_two_entries_is_the_first_that_differs() {
    let mut found = HashSet::new();
    for joined in all_joined() {
        for [own, others, kept] in joined.slots() {
            let (Some(own), Some(others)) = (own, others) else {
                continue;
            };
            if let Some((is_odd, bit)) = first_bit(own, others) {
                assert!([Some(own), Some(others)].contains(&kept));
                found.insert((is_odd, bit, kept == Some(own)));
            }
        }
    }
    let of_even = (9..=80).filter(|bit| !(73..=77).contains(bit));
    let places = of_even.map(|bit| (false, bit));
    for (is_odd, bit) in places.chain((10..=80).map(|bit| (true, bit))) {
        for is_own in [true, false] {
            let wanted = (is_odd, bit, is_own);
            assert!(found.contains(&wanted), "{wanted:?}");
        }
    }
}

/// Of one slot: what is there, and whether it is kept.
#[test]
fn slots_of_one_site_alone_later_days_and_equal_entries_are_joined() {
    let mut found = HashSet::new();
    for joined in all_joined() {
        for [own, others, kept] in joined.slots() {
            let sort = match (own, others) {
                (None, None) => "none",
                (Some(_), None) => "own alone",
                (None, Some(_)) => "the other's alone",
                (Some(own), Some(others)) if own == others => "equal",
                (Some(own), Some(others)) if own.day > others.day => "own later",
                (Some(own), Some(others)) if own.day < others.day => "the other's later",
                _ => "equal days",
            };
            found.insert((sort, kept == own, kept == others));
        }
    }
    let expected = [
        ("none", true, true),
        ("own alone", true, false),
        ("the other's alone", false, true),
        ("equal", true, true),
        ("own later", true, false),
        ("the other's later", false, true),
        ("equal days", true, false),
        ("equal days", false, true),
    ];
    assert_eq!(found, HashSet::from(expected));
}

/// A later day is kept though its NA is less, or its C.
#[test]
fn later_days_have_lesser_words_somewhere() {
    let (mut by_period, mut by_c) = (HashSet::new(), HashSet::new());
    for joined in all_joined() {
        for [own, others, kept] in joined.slots() {
            let (Some(own), Some(others)) = (own, others) else {
                continue;
            };
            let (lesser, greater) = (own.min(others), own.max(others));
            let is_own = kept == Some(own);
            if lesser.day < greater.day && (lesser.day - 1) % 1461 > (greater.day - 1) % 1461 {
                by_period.insert(is_own);
            }
            if lesser.day < greater.day && lesser.is_operable() && !greater.is_operable() {
                by_c.insert(is_own);
            }
        }
    }
    assert_eq!((by_period.len(), by_c.len()), (2, 2));
}

#[test]
fn every_line_is_the_summary_of_the_joined_book() {
    let mut counts = HashSet::new();
    for joined in all_joined() {
        let days = book_of(&joined.after.in_use).into_iter().flatten();
        let days: Vec<i64> = days.map(|entry| entry.day).collect();
        let oldest = days.iter().min().unwrap_or(&0);
        let newest = days.iter().max().unwrap_or(&0);
        let line = format!("ok {} {oldest} {newest}", days.len());
        assert_eq!(joined.line, line);
        counts.insert(days.len());
    }
    assert!([0, 24].iter().all(|count| counts.contains(count)));
    assert!(counts.len() > 4, "{counts:?}");
}

#[test]
fn empty_books_are_joined_and_books_that_bring_nothing() {
    let all = all_joined();
    let is_so = |own: bool, others: bool| {
        all.iter().any(|joined| {
            let Sites { in_use, set_aside } = &joined.before;
            [is_empty(in_use), is_empty(set_aside)] == [own, others]
        })
    };
    for own in [true, false] {
        for others in [true, false] {
            assert!(is_so(own, others));
        }
    }
    let has_less = |joined: &Joined| {
        let mut slots = joined.slots().into_iter();
        joined.is_unchanged() && slots.any(|[own, others, _]| others.is_some() && others < own)
    };
    assert!(all.iter().filter(|joined| has_less(joined)).count() > 4);
    let is_the_same = |joined: &&Joined| {
        let [own, others] = [&joined.before.in_use, &joined.before.set_aside].map(book_of);
        own == others && !is_empty(&joined.before.in_use)
    };
    assert!(all.iter().filter(is_the_same).count() > 1);
}

/// The health of a channel before a join and after it, asked by the card that it belongs to.
#[test]
fn a_join_moves_health_in_every_way_and_no_row() {
    let mut found = HashSet::new();
    for joined in all_joined() {
        let [before, after] = [&joined.before.in_use, &joined.after.in_use];
        assert_eq!(joined.before.set_aside, joined.after.set_aside);
        for channel in 0..48 {
            let card = if channel < 24 { ONE } else { TWO };
            assert_eq!(
                before.immediate(card, channel),
                after.immediate(card, channel)
            );
            assert_eq!(before.tallies(card, channel), after.tallies(card, channel));
            let health = [before, after].map(|station| station.health(card, channel).unwrap());
            found.insert(health.map(number));
        }
    }
    let [unknown, usable, not_usable] = [0, 1, 2];
    for change in [
        [unknown, usable],
        [unknown, not_usable],
        [usable, not_usable],
        [not_usable, usable],
        [usable, usable],
        [unknown, unknown],
    ] {
        assert!(found.contains(&change), "{change:?}");
    }
}

fn number(health: Health) -> u8 {
    match health {
        Health::Unknown => 0,
        Health::Usable => 1,
        Health::NotUsable => 2,
    }
}

/// The requests from the first exchange of the stations on, with their lines.
fn asked_of_sites(input: &[u8]) -> Vec<(Request<'_>, String)> {
    let mut sites = Sites::default();
    let lines = whole_requests(input).map(|request| {
        let line = answer_piece(&mut sites, Piece::Whole(request));
        (request, line)
    });
    lines
        .skip_while(|(request, _)| request.op != OTHER_STATION)
        .collect()
}

#[test]
fn the_requests_of_sites_are_not_too_many() {
    let input = make::trial_input(20260);
    let asked = asked_of_sites(&input);
    assert!((3000..5000).contains(&asked.len()), "{}", asked.len());
    let mut ops: HashMap<u8, usize> = HashMap::new();
    for (request, _) in &asked {
        *ops.entry(request.op).or_default() += 1;
    }
    for op in [
        ENTRY,
        ENTRY_WORDS,
        SUMMARY,
        HEALTH,
        IMMEDIATE,
        TALLIES,
        JOIN,
        OTHER_STATION,
    ] {
        assert!(ops[&op] > 20, "{op}");
    }
}

/// The lines of slots 1 to 24, wherever all are asked one after another.
fn books_asked(input: &[u8]) -> Vec<Vec<String>> {
    let asked = asked_of_sites(input);
    let entries: Vec<&(Request, String)> = asked
        .iter()
        .filter(|(request, _)| request.op != ENTRY_WORDS)
        .collect();
    let is_book = |run: &&[&(Request, String)]| {
        let slots = (1..).zip(run.iter());
        slots
            .into_iter()
            .all(|(slot, (request, _))| (request.op, request.payload) == (ENTRY, &[slot][..]))
    };
    let books = entries.windows(24).filter(is_book);
    books
        .map(|run| run.iter().map(|(_, line)| line.clone()).collect())
        .collect()
}

/// The joined book of two sites, the other's own, then one station that the two cards have told
/// the same in four ways; before them three books, in three orders and two groupings each.
#[test]
fn the_last_books_are_the_same_in_every_order() {
    let input = make::trial_input(20260);
    let books = books_asked(&input);
    let [three_books @ .., joined, others, _, _, _, _] = &books[books.len() - 12..] else {
        panic!("twelve books");
    };
    assert_eq!(three_books, vec![three_books[0].clone(); 6]);
    assert_ne!(joined, others);
    assert_ne!(*joined, three_books[0]);
    for on_two_cards in &books[books.len() - 4..] {
        assert_eq!(on_two_cards, joined);
    }
}
