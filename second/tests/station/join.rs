//! Books joined: slot by slot the greater entry, whatever the order and the grouping.

use std::collections::HashSet;

use second::random::SplitMix64;
use second::station::book::{Entry, Summary};
use second::station::card::{ONE, TWO};
use second::station::{Health, Station};

use crate::sites::*;
use crate::strings::*;
use crate::summary::counted;

const BOOKS_AT_RANDOM: usize = 2000;
const HISTORIES: u64 = 60;

/// Three stations each time: with entries at random, then with made histories.
fn threes_of_stations() -> impl Iterator<Item = [Station; 3]> {
    let mut random = SplitMix64::new(41);
    let at_random =
        (0..BOOKS_AT_RANDOM).map(move |_| [0; 3].map(|_| station_at_random(&mut random)));
    let made = (0..HISTORIES).map(|seed| histories_of::<3>(seed).map(|calls| station_told(&calls)));
    at_random.chain(made)
}

/// What the two have of a slot, and how the first difference lies.
#[derive(Debug, PartialEq, Eq, Hash)]
enum Clash {
    Nothing,
    OnlyFirst,
    OnlySecond,
    Same,
    Day { first_is_greater: bool },
    Even { first_is_greater: bool },
    Odd { first_is_greater: bool },
}

fn clash(first: Option<Entry>, second: Option<Entry>) -> Clash {
    let (first, second) = match (first, second) {
        (None, None) => return Clash::Nothing,
        (Some(_), None) => return Clash::OnlyFirst,
        (None, Some(_)) => return Clash::OnlySecond,
        (Some(first), Some(second)) => (first, second),
    };
    if first.day != second.day {
        let first_is_greater = first.day > second.day;
        return Clash::Day { first_is_greater };
    }
    if first.even != second.even {
        let first_is_greater = first.even > second.even;
        return Clash::Even { first_is_greater };
    }
    if first.odd != second.odd {
        let first_is_greater = first.odd > second.odd;
        return Clash::Odd { first_is_greater };
    }
    Clash::Same
}

/// By the clash alone.
fn expected(first: Option<Entry>, second: Option<Entry>) -> Option<Entry> {
    match clash(first, second) {
        Clash::Nothing => None,
        Clash::OnlyFirst | Clash::Same => first,
        Clash::OnlySecond => second,
        Clash::Day { first_is_greater }
        | Clash::Even { first_is_greater }
        | Clash::Odd { first_is_greater } => match first_is_greater {
            true => first,
            false => second,
        },
    }
}

fn slots_of(first: &Station, second: &Station) -> Vec<(Option<Entry>, Option<Entry>)> {
    let slots = book_of(first).into_iter().zip(book_of(second));
    slots.collect()
}

#[test]
fn every_slot_has_the_greater_entry() {
    for [first, second, _] in threes_of_stations() {
        let slots = slots_of(&first, &second).into_iter();
        let book: Book = slots.map(|(one, other)| expected(one, other)).collect();
        assert_eq!(book_of(&joined(&first, &second)), book);
    }
}

/// The ways of a table, and which of them come in made histories.
#[test]
fn the_books_clash_in_every_way() {
    let mut found = HashSet::new();
    for [first, second, _] in threes_of_stations() {
        let slots = slots_of(&first, &second).into_iter();
        found.extend(slots.map(|(one, other)| clash(one, other)));
    }
    for first_is_greater in [true, false] {
        assert!(found.contains(&Clash::Day { first_is_greater }));
        assert!(found.contains(&Clash::Even { first_is_greater }));
        assert!(found.contains(&Clash::Odd { first_is_greater }));
    }
    for way in [
        Clash::Nothing,
        Clash::OnlyFirst,
        Clash::OnlySecond,
        Clash::Same,
    ] {
        assert!(found.contains(&way), "{way:?}");
    }
}

#[test]
fn the_order_makes_no_difference() {
    for [first, second, _] in threes_of_stations() {
        let one_way = book_of(&joined(&first, &second));
        assert_eq!(one_way, book_of(&joined(&second, &first)));
    }
}

#[test]
fn the_grouping_makes_no_difference() {
    for [first, second, third] in threes_of_stations() {
        let first_two_first = joined(&joined(&first, &second), &third);
        let last_two_first = joined(&first, &joined(&second, &third));
        assert_eq!(first_two_first, last_two_first);
    }
}

#[test]
fn a_book_with_itself_and_with_an_empty_one_is_itself() {
    for [first, ..] in threes_of_stations() {
        assert_eq!(joined(&first, &first), first);
        assert_eq!(joined(&first, &Station::default()), first);
        let other_way = joined(&Station::default(), &first);
        assert_eq!(book_of(&other_way), book_of(&first));
    }
    let empty = Station::default();
    assert_eq!(joined(&empty, &empty), empty);
}

#[test]
fn joined_again_nothing_changes() {
    for [first, second, _] in threes_of_stations() {
        let once = joined(&first, &second);
        assert_eq!(joined(&once, &second), once);
        let back = joined(&second, &once);
        assert_eq!(book_of(&back), book_of(&once));
        assert_eq!(joined(&once, &back), once);
    }
}

/// Both ways there is a join that changes something, or the tests above would show nothing.
#[test]
fn some_joins_change_the_book_and_some_leave_it() {
    let mut changes = HashSet::new();
    for [first, second, _] in threes_of_stations() {
        changes.insert([
            joined(&first, &second) != first,
            joined(&second, &first) != second,
        ]);
    }
    for change in [[true, true], [true, false], [false, true]] {
        assert!(changes.contains(&change), "{change:?}");
    }
}

#[test]
fn the_summary_is_that_of_a_walk_over_the_joined_book() {
    let mut rises = HashSet::new();
    for [first, second, _] in threes_of_stations() {
        let station = joined(&first, &second);
        let walk = counted(
            book_of(&station)
                .into_iter()
                .flatten()
                .map(|entry| entry.day),
        );
        let before = first.summary(ONE).unwrap();
        for card in [ONE, TWO] {
            assert_eq!(station.summary(card), Ok(walk));
        }
        rises.insert(movement(before, walk));
    }
    for count in [false, true] {
        for newest in [false, true] {
            assert!(rises.contains(&[count, newest, true]));
        }
    }
    assert!(rises.contains(&[false, false, false]));
}

/// Whether the count has risen, the newest day, and whether the oldest day is another one.
fn movement(before: Summary, after: Summary) -> [bool; 3] {
    [
        after.count > before.count,
        after.newest > before.newest,
        after.oldest != before.oldest,
    ]
}

/// Of all 48 channels, each asked by its card.
#[test]
fn rows_records_and_tallies_stay_as_they_were() {
    for [first, second, _] in threes_of_stations() {
        let station = joined(&first, &second);
        for channel in 0..48 {
            let card = if channel < 24 { ONE } else { TWO };
            assert_eq!(
                station.immediate(card, channel),
                first.immediate(card, channel)
            );
            assert_eq!(station.five_of(card, channel), first.five_of(card, channel));
            assert_eq!(station.tallies(card, channel), first.tallies(card, channel));
        }
    }
}

fn showing(slot: i64, day: i64, c: i64) -> Station {
    let mut station = Station::default();
    show(&mut station, 0, &entry_strings(slot, day, [c, 0, 0]));
    station
}

/// B is good, so C of the entry for n tells it.
#[test]
fn health_reads_the_joined_book() {
    let mut own = showing(5, 10, 1);
    for (channel, n) in [(1, 5), (2, 7)] {
        take_all(&mut own, channel, 100, &strings_1_to_4(0, n));
    }
    for (others, of_5, of_7) in [
        (showing(7, 1, 1), Health::Usable, Health::Usable),
        (showing(7, 1, 0), Health::Usable, Health::NotUsable),
        (showing(5, 10, 0), Health::Usable, Health::Unknown),
        (showing(5, 11, 0), Health::NotUsable, Health::Unknown),
        (showing(5, 11, 1), Health::Usable, Health::Unknown),
        (showing(6, 11, 0), Health::Usable, Health::Unknown),
    ] {
        let station = joined(&own, &others);
        assert_eq!(station.health(ONE, 1), Ok(of_5));
        assert_eq!(station.health(ONE, 2), Ok(of_7));
    }
}
