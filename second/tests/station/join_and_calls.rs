//! Joins among calls: "after a join, the book rule of demand 3 counts what either site has
//! shown".

use second::random::SplitMix64;
use second::station::book::Summary;
use second::station::card::ONE;
use second::station::Station;

use crate::calls::Call;
use crate::sites::*;
use crate::strings::*;
use crate::summary::counted;

const HISTORIES: u64 = 60;

/// For each slot the greatest entry of these stations.
fn greatest(stations: &[Station]) -> Book {
    let books: Vec<Book> = stations.iter().map(book_of).collect();
    let of_slot = |slot: usize| books.iter().filter_map(|book| book[slot]).max();
    (0..24).map(of_slot).collect()
}

/// The channels of these calls, each with a station of its own.
fn channels_alone(calls: &[Call]) -> Vec<Station> {
    let mut stations = vec![Station::default(); 256];
    for call in calls {
        let _ = call.answer(&mut stations[usize::from(call.channel())]);
    }
    stations
}

fn walk(station: &Station) -> Summary {
    let entries = book_of(station).into_iter().flatten();
    counted(entries.map(|entry| entry.day))
}

/// Before, among and after the calls of the one: its answers are those that it has alone, and the
/// book counts what either has shown.
#[test]
fn wherever_the_join_stands_the_book_counts_what_both_have_shown() {
    let mut random = SplitMix64::new(43);
    for seed in 0..HISTORIES {
        let [first, second] = histories_of::<2>(seed);
        let other = station_told(&second);
        let expected = greatest(&[channels_alone(&first), channels_alone(&second)].concat());
        for place in [0, 1 + random.below(first.len()), first.len()] {
            let (mut station, mut alone) = (Station::default(), Station::default());
            for (index, call) in first.iter().enumerate() {
                if index == place {
                    station.join_book_of(&other);
                }
                assert_eq!(call.answer(&mut station), call.answer(&mut alone));
            }
            if place == first.len() {
                station.join_book_of(&other);
            }
            assert_eq!(book_of(&station), expected, "history {seed}, {place}");
        }
    }
}

/// The book never has what only the other site is shown later; the next join brings it.
#[test]
fn what_the_other_is_shown_after_a_join_comes_with_the_next() {
    let mut is_missing = 0;
    for seed in 0..HISTORIES {
        let [first, second] = histories_of::<2>(seed);
        let (older, newer) = second.split_at(second.len() / 2);
        let (mut station, mut other) = (station_told(&first), station_told(older));
        station.join_book_of(&other);
        let after_the_first = book_of(&station);
        tell(&mut other, newer);
        assert_eq!(book_of(&station), after_the_first);
        station.join_book_of(&other);
        let expected = greatest(&[station_told(&first), station_told(&second)]);
        assert_eq!(book_of(&station), expected, "history {seed}");
        is_missing += usize::from(after_the_first != expected);
    }
    assert!(is_missing > 10, "{is_missing}");
}

#[test]
fn an_older_book_after_a_newer_one_changes_nothing() {
    for seed in 0..HISTORIES {
        let [first, second] = histories_of::<2>(seed);
        let newer = joined(&station_told(&first), &station_told(&second));
        let mut older_books = Vec::new();
        for part in 1..=4 {
            let older = station_told(&second[..second.len() * part / 4]);
            assert_eq!(joined(&newer, &older), newer, "history {seed}");
            older_books.push(book_of(&older));
        }
        assert_ne!(older_books[0], older_books[3], "history {seed}");
    }
}

/// Joins both ways at any time, in either order: with one more both have all that was shown.
#[test]
fn joins_at_any_time_lose_nothing_and_bring_nothing_else() {
    let mut random = SplitMix64::new(47);
    for seed in 0..HISTORIES {
        let histories = histories_of::<2>(seed);
        let expected = greatest(&histories.each_ref().map(|calls| station_told(calls)));
        let mut sites = [Station::default(), Station::default()];
        let mut rests = histories.each_ref().map(|calls| &calls[..]);
        while rests.iter().any(|rest| !rest.is_empty()) {
            let site = random.below(2);
            let count = random.below(40).min(rests[site].len());
            let (now, later) = rests[site].split_at(count);
            tell(&mut sites[site], now);
            rests[site] = later;
            join_into(&mut sites, random.below(2));
            for station in &sites {
                assert_eq!(station.summary(ONE), Ok(walk(station)));
            }
        }
        join_into(&mut sites, 0);
        join_into(&mut sites, 1);
        for station in &sites {
            assert_eq!(book_of(station), expected, "history {seed}");
        }
    }
}

fn join_into(sites: &mut [Station; 2], site: usize) {
    let other = sites[1 - site].clone();
    sites[site].join_book_of(&other);
}

/// Less, equal and greater than what the join has brought.
#[test]
fn entries_shown_after_a_join_compare_with_the_joined_ones() {
    let (mut own, mut other) = (Station::default(), Station::default());
    show(&mut own, 0, &entry_strings(3, 20, [0, 0, 0]));
    show(&mut other, 0, &entry_strings(3, 30, [0, 1, 1]));
    own.join_book_of(&other);
    for (day, bits, kept) in [
        (20, [1, 1, 1], (30, [0, 1, 1])),
        (30, [0, 0, 1], (30, [0, 1, 1])),
        (30, [0, 1, 0], (30, [0, 1, 1])),
        (30, [0, 1, 1], (30, [0, 1, 1])),
        (30, [1, 0, 0], (30, [1, 0, 0])),
        (31, [0, 0, 0], (31, [0, 0, 0])),
    ] {
        show(&mut own, 5, &entry_strings(3, day, bits));
        let mut expected = Station::default();
        show(&mut expected, 0, &entry_strings(3, kept.0, kept.1));
        assert_eq!(book_of(&own), book_of(&expected), "day {day}, {bits:?}");
        assert_eq!(own.summary(ONE), Ok(walk(&own)));
    }
}

/// "The book stays."
#[test]
fn resets_leave_the_joined_book() {
    for seed in 0..HISTORIES {
        let [first, second] = histories_of::<2>(seed).map(|calls| station_told(&calls));
        let mut station = joined(&first, &second);
        let before = book_of(&station);
        for channel in 0..24 {
            station.reset(ONE, channel).unwrap();
        }
        assert_eq!(book_of(&station), before);
        assert!(before.iter().flatten().count() > 0);
    }
}

/// String 1 newly stored brings the frame's entry once more, which is less than the joined one.
#[test]
fn a_frame_held_before_the_join_brings_its_entries_again() {
    let (mut own, mut other) = (Station::default(), Station::default());
    let strings = entry_strings(3, 20, [1, 1, 1]);
    take_all(&mut own, 0, 100, &strings[..2]);
    show(&mut other, 0, &entry_strings(3, 30, [0, 0, 0]));
    own.join_book_of(&other);
    for string in [strings[2], string_1(0)] {
        take_all(&mut own, 0, 100, &[string]);
        assert_eq!(book_of(&own), book_of(&other));
    }
}
