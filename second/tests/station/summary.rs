//! The summary of the book: how many slots are filled, the oldest day and the newest.

use std::cmp::Ordering::{self, Equal, Greater, Less};
use std::collections::{HashMap, HashSet};

use second::random::SplitMix64;
use second::station::book::Summary;
use second::station::card::ONE;
use second::station::Station;
use second::string::NavString;

use crate::calls::history;
use crate::strings::*;

const HISTORIES: u64 = 100;

fn summary_of(count: usize, oldest: i64, newest: i64) -> Summary {
    Summary {
        count,
        oldest,
        newest,
    }
}

fn summary(station: &Station) -> Summary {
    station.summary(ONE).unwrap()
}

/// Counted from the days of all entries that there are.
pub fn counted(days: impl Iterator<Item = i64>) -> Summary {
    let mut days: Vec<i64> = days.collect();
    days.sort();
    match days[..] {
        [] => summary_of(0, 0, 0),
        [only] => summary_of(1, only, only),
        [oldest, .., newest] => summary_of(days.len(), oldest, newest),
    }
}

/// Counted from what the station answers for each slot.
fn counted_by_slots(station: &Station) -> Summary {
    let entries = (1..=24).filter_map(|slot| station.entry(ONE, slot).ok());
    counted(entries.map(|entry| entry.day))
}

/// An entry for this slot, with a day of the first period.
fn entry(slot: i64, day: i64, epsilon: i64) -> [NavString; 3] {
    [string_5(1, day), even(6, slot, 1, epsilon), odd(7, 0, 0)]
}

/// Shows entries by slot, day and epsilon, each with the summary that it leaves.
fn require_summaries(steps: &[([i64; 3], Summary)]) {
    let mut station = Station::default();
    for ([slot, day, epsilon], expected) in steps {
        show(&mut station, 0, &entry(*slot, *day, *epsilon));
        assert_eq!(summary(&station), *expected, "slot {slot}, day {day}");
    }
}

#[test]
fn an_empty_book_has_nothing_and_both_days_0() {
    let mut station = Station::default();
    assert_eq!(summary(&station), summary_of(0, 0, 0));
    take_all(&mut station, 0, 100, &strings_1_to_4(0, 1));
    take_all(&mut station, 0, 100, &entry(3, 10, 0)[..2]);
    assert_eq!(summary(&station), summary_of(0, 0, 0));
}

#[test]
fn every_slot_counts_alone() {
    for slot in 1..=24 {
        require_summaries(&[([slot, 10, 0], summary_of(1, 10, 10))]);
    }
}

#[test]
fn the_oldest_day_rises_where_the_only_oldest_entry_is_replaced() {
    require_summaries(&[
        ([1, 10, 0], summary_of(1, 10, 10)),
        ([2, 30, 0], summary_of(2, 10, 30)),
        ([1, 20, 0], summary_of(2, 20, 30)),
        ([1, 30, 0], summary_of(2, 30, 30)),
        ([1, 40, 0], summary_of(2, 30, 40)),
        ([2, 50, 0], summary_of(2, 40, 50)),
    ]);
}

#[test]
fn the_oldest_day_stays_until_the_last_entry_of_it_is_replaced() {
    require_summaries(&[
        ([24, 10, 0], summary_of(1, 10, 10)),
        ([7, 10, 0], summary_of(2, 10, 10)),
        ([1, 10, 0], summary_of(3, 10, 10)),
        ([7, 40, 0], summary_of(3, 10, 40)),
        ([24, 20, 0], summary_of(3, 10, 40)),
        ([1, 30, 0], summary_of(3, 20, 40)),
    ]);
}

#[test]
fn the_newest_day_rises_and_never_falls() {
    require_summaries(&[
        ([1, 10, 0], summary_of(1, 10, 10)),
        ([2, 20, 0], summary_of(2, 10, 20)),
        ([2, 30, 0], summary_of(2, 10, 30)),
        ([2, 20, 9], summary_of(2, 10, 30)),
        ([3, 5, 0], summary_of(3, 5, 30)),
        ([3, 40, 0], summary_of(3, 10, 40)),
    ]);
}

/// Other bits are kept or not, by the order of entries; the days are the same.
#[test]
fn entries_of_the_same_day_and_lower_ones_leave_the_summary() {
    let all = summary_of(2, 10, 30);
    require_summaries(&[
        ([1, 10, 5], summary_of(1, 10, 10)),
        ([2, 30, 5], all),
        ([1, 10, 5], all),
        ([1, 10, 6], all),
        ([1, 10, 4], all),
        ([1, 9, 9], all),
        ([2, 30, 6], all),
        ([2, 29, 9], all),
    ]);
}

#[test]
fn the_least_and_the_greatest_day() {
    let mut station = Station::default();
    for (period, day, slot) in [(31, 1461, 1), (1, 1, 2)] {
        show(
            &mut station,
            0,
            &[string_5(period, day), even(6, slot, 1, 0), odd(7, 0, 0)],
        );
    }
    assert_eq!(summary(&station), summary_of(2, 1, 45_291));
}

/// String 5 comes last.
#[test]
fn five_entries_shown_at_once() {
    let mut station = Station::default();
    take_all(&mut station, 0, 100, &five_pairs(6));
    assert_eq!(summary(&station), summary_of(0, 0, 0));
    take_all(&mut station, 0, 100, &[string_5(1, 10)]);
    assert_eq!(summary(&station), summary_of(5, 10, 10));
}

#[test]
fn the_summary_stays_after_resets() {
    let mut station = station_with_received_frame(3);
    for channel in 0..24 {
        station.reset(ONE, channel).unwrap();
        assert_eq!(summary(&station), summary_of(5, 7409, 7409));
    }
}

/// What was heard, with refused and cut strings and resets: after each call the summary is
/// what the slots tell.
#[test]
fn the_summary_is_what_the_slots_tell_after_every_call() {
    for seed in 0..HISTORIES {
        let mut station = Station::default();
        for (index, call) in history(seed).iter().enumerate() {
            // What it answers makes no difference here.
            let _ = call.answer(&mut station);
            let expected = counted_by_slots(&station);
            assert_eq!(summary(&station), expected, "history {seed}, call {index}");
        }
    }
}

/// Entries of few slots and days, shown at random. The newest day that each slot has been
/// shown is kept beside the station, which is not asked for its entries.
#[test]
fn the_summary_is_what_was_shown() {
    let mut random = SplitMix64::new(29);
    let mut changes = HashSet::new();
    for seed in 0..HISTORIES {
        let (mut station, mut newest) = (Station::default(), HashMap::new());
        for _ in 0..40 {
            let slot = random.one_of(&[1, 2, 12, 23, 24]);
            let [day, epsilon, channel] = [8, 3, 24].map(|limit| random.below(limit));
            let day = 1 + day as i64;
            let before = summary(&station);
            show(&mut station, channel, &entry(slot, day, epsilon as i64));
            let kept = newest.entry(slot).or_insert(day);
            *kept = day.max(*kept);
            let after = summary(&station);
            assert_eq!(after, counted(newest.values().copied()), "history {seed}");
            changes.insert(change(before, after));
        }
    }
    require_every_change(&changes);
}

/// By how much the count has risen, and how the oldest and the newest day have moved.
type Change = (usize, Ordering, Ordering);

fn change(before: Summary, after: Summary) -> Change {
    let oldest = after.oldest.cmp(&before.oldest);
    let newest = after.newest.cmp(&before.newest);
    (after.count - before.count, oldest, newest)
}

/// The first entry moves both days up from 0. A further slot can only lower the oldest day
/// and raise the newest; a replaced entry can only raise either.
fn require_every_change(changes: &HashSet<Change>) {
    let every = [
        (1, Greater, Greater),
        (1, Equal, Equal),
        (1, Less, Equal),
        (1, Equal, Greater),
        (0, Equal, Equal),
        (0, Greater, Equal),
        (0, Equal, Greater),
        (0, Greater, Greater),
    ];
    assert_eq!(*changes, HashSet::from(every));
}
