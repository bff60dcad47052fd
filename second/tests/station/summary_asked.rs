//! The made input asks for the summary after every kind of change and after calls that change
//! nothing. The seed is that of the stored input.

use std::cmp::Ordering::{self, Equal, Less};
use std::mem;

use second::make;
use second::request::{pieces, Piece, Request, BLOCK, FRESH, OFFER, OTHER_STATION, RESET, SUMMARY};
use second::station::book::{Entry, Summary};
use second::station::card::ONE;
use second::station::Station;
use second::trial::answer_piece;
use second::trial::sites::Sites;

use crate::sites::{book_of, Book};
use crate::summary::counted;

/// What came between a question and the one before it.
struct Asked {
    /// The calls, each by its op, with its lines: of those that are taken the news alone.
    calls: Vec<(u8, String)>,
    /// The entries that one channel has shown, as far as blocks had no part in it.
    shown: Vec<(usize, Entry)>,
    before: Book,
    after: Book,
    line: String,
}

fn days_of(book: &Book) -> Vec<Option<i64>> {
    book.iter()
        .map(|entry| entry.map(|entry| entry.day))
        .collect()
}

fn summary_of(book: &Book) -> Summary {
    counted(days_of(book).into_iter().flatten())
}

fn is_empty(book: &Book) -> bool {
    book.iter().all(Option::is_none)
}

/// Stations that hear one channel each since its reset, and only what was newly stored: their
/// books tell what this channel has shown.
struct Alone(Vec<Station>);

impl Alone {
    fn new() -> Alone {
        Alone(vec![Station::default(); 48])
    }

    /// The entries that this call has shown.
    fn hear(&mut self, card: u8, request: Request, line: &str) -> Vec<(usize, Entry)> {
        match (request.op, request.payload) {
            (OFFER, [channel, e0, e1, e2, e3, symbols @ ..]) if is_new(line) => {
                let station = &mut self.0[usize::from(*channel)];
                let before = book_of(station);
                let epoch = u32::from_be_bytes([*e0, *e1, *e2, *e3]);
                let answer = station.offer(card, usize::from(*channel), epoch, symbols);
                assert!(answer.is_ok());
                return entries_that_differ(before, book_of(station));
            }
            (RESET, [channel]) if line == "ok" => {
                self.0[usize::from(*channel)] = Station::default();
            }
            (FRESH | OTHER_STATION, []) | (BLOCK, _) => *self = Alone::new(),
            _ => (),
        }
        Vec::new()
    }
}

/// The later entries, with their slots.
fn entries_that_differ(before: Book, after: Book) -> Vec<(usize, Entry)> {
    let slots = (1..).zip(before.into_iter().zip(after));
    slots
        .filter(|(_, (before, after))| before != after)
        .filter_map(|(slot, (_, after))| Some((slot, after?)))
        .collect()
}

/// A line, or several of a block, without m, repaired bit and polarity.
fn in_short(lines: &str) -> String {
    let short = |line: &str| match line.split(' ').collect::<Vec<_>>()[..] {
        ["taken", _, _, news, _] => format!("taken {news}"),
        _ => String::from(line),
    };
    let lines: Vec<String> = lines.lines().map(short).collect();
    lines.join("\n")
}

const HELD_ALREADY: &str = "taken 0";

fn is_new(line: &str) -> bool {
    line.starts_with("taken ") && line != HELD_ALREADY
}

/// All but the first, which has everything else of the input before it, and those that another
/// station was asked before.
fn all_asked() -> Vec<Asked> {
    let (mut sites, mut alone) = (Sites::default(), Alone::new());
    let (mut calls, mut shown) = (Vec::new(), Vec::new());
    let mut before = book_of(&sites.in_use);
    let mut found = Vec::new();
    for piece in pieces(&make::trial_input(20260)) {
        let line = in_short(&answer_piece(&mut sites, piece));
        let Piece::Whole(request) = piece else {
            continue;
        };
        let (card, request) = request.asked_by().unwrap_or((ONE, request));
        shown.extend(alone.hear(card, request, &line));
        match (request.op, request.payload) {
            (SUMMARY, []) if line.starts_with("ok ") => {
                let after = book_of(&sites.in_use);
                found.push(Asked {
                    calls: mem::take(&mut calls),
                    shown: mem::take(&mut shown),
                    before: mem::replace(&mut before, after.clone()),
                    after,
                    line,
                });
            }
            (op, _) => calls.push((op, line)),
        }
    }
    let mut found = found.split_off(1);
    found.retain(|asked| asked.calls.iter().all(|(op, _)| *op != OTHER_STATION));
    found
}

impl Asked {
    fn summaries(&self) -> [Summary; 2] {
        [&self.before, &self.after].map(summary_of)
    }

    fn days(&self) -> [Vec<Option<i64>>; 2] {
        [&self.before, &self.after].map(days_of)
    }

    /// One call came between, of this op.
    fn is_after_one(&self, op: u8) -> bool {
        matches!(self.calls[..], [(by, _)] if by == op)
    }

    /// One call came between, with this line, and the book stays.
    fn is_unchanged_by(&self, op: u8, line: &str) -> bool {
        let only = [(op, String::from(line))];
        self.calls == only && self.before == self.after
    }

    /// Shown entries as they compare with what the book had.
    fn has_shown(&self, order: Ordering) -> bool {
        self.shown.iter().any(|(slot, entry)| {
            let kept = self.before[slot - 1];
            kept.is_some_and(|kept| entry.cmp(&kept) == order)
        })
    }
}

#[test]
fn every_line_is_the_count_of_the_slots() {
    for asked in all_asked() {
        let Summary {
            count,
            oldest,
            newest,
        } = summary_of(&asked.after);
        assert_eq!(asked.line, format!("ok {count} {oldest} {newest}"));
    }
}

/// A change of the summary, from what it was to what it is.
type Move = fn(Summary, Summary) -> bool;

#[test]
fn the_summary_is_asked_after_every_kind_of_change() {
    let all = all_asked();
    let kinds: [(&str, Move); 10] = [
        ("first entry", |a, b| (a.count, b.count) == (0, 1)),
        ("second slot", |a, b| (a.count, b.count) == (1, 2)),
        ("last slot", |a, b| (a.count, b.count) == (23, 24)),
        ("several at once", |a, b| {
            a.count > 0 && b.count > a.count + 1
        }),
        ("a slot with a day between", |a, b| {
            b.count == a.count + 1 && (a.oldest, a.newest) == (b.oldest, b.newest)
        }),
        ("an older slot", |a, b| {
            b.count == a.count + 1 && b.oldest < a.oldest
        }),
        ("a newer slot", |a, b| {
            b.count == a.count + 1 && a.count > 0 && b.newest > a.newest
        }),
        ("the oldest rises alone", |a, b| {
            a.count == b.count && a.oldest < b.oldest && a.newest == b.newest
        }),
        ("the newest rises alone", |a, b| {
            a.count == b.count && a.oldest == b.oldest && a.newest < b.newest
        }),
        ("both rise", |a, b| {
            a.count == b.count && a.count > 1 && a.oldest < b.oldest && a.newest < b.newest
        }),
    ];
    for op in [OFFER, BLOCK] {
        for (kind, is_so) in kinds {
            let asked = all.iter().filter(|asked| asked.is_after_one(op));
            let mut changes = asked.map(Asked::summaries);
            assert!(changes.any(|[a, b]| is_so(a, b)), "{kind}, op {op}");
        }
    }
    let is_emptied = |asked: &Asked| !is_empty(&asked.before) && is_empty(&asked.after);
    assert!(all.iter().any(is_emptied));
}

/// An entry of the oldest day gives way to a newer one, and another of that day is left.
#[test]
fn the_summary_is_asked_where_one_of_several_oldest_entries_is_replaced() {
    let is_one_of_several = |asked: &Asked| {
        let [before, after] = asked.summaries();
        let [days_before, days_after] = asked.days();
        let mut days = days_before.into_iter().zip(days_after);
        let oldest = Some(before.oldest);
        days.any(|(day, later)| day == oldest && day < later) && before.oldest == after.oldest
    };
    assert!(all_asked().iter().any(is_one_of_several));
}

#[test]
fn the_summary_is_asked_where_equal_and_lower_entries_are_shown() {
    let mut all = all_asked();
    all.retain(|asked| asked.before == asked.after);
    for order in [Equal, Less] {
        assert!(all.iter().any(|asked| asked.has_shown(order)), "{order:?}");
    }
}

#[test]
fn the_summary_is_asked_where_the_bits_are_greater_and_the_days_stay() {
    let mut all = all_asked();
    all.retain(|asked| {
        let [before, after] = asked.days();
        before == after && asked.before != asked.after
    });
    for op in [OFFER, BLOCK] {
        assert!(all.iter().any(|asked| asked.is_after_one(op)), "op {op}");
    }
}

/// Refused strings, strings held already, resets, and the same in blocks: of a book that has
/// something.
#[test]
fn the_summary_is_asked_after_calls_that_leave_the_book() {
    let mut all = all_asked();
    all.retain(|asked| !is_empty(&asked.before));
    let refused = [15, 2, 31, 32, 33].into_iter().chain(4..=9);
    let refused = refused.map(|number| format!("no {number}"));
    for line in refused.chain([String::from(HELD_ALREADY)]) {
        let alone = |asked: &Asked| asked.is_unchanged_by(OFFER, &line);
        assert!(all.iter().any(alone), "{line}");
        let in_block = |asked: &Asked| asked.is_unchanged_by(BLOCK, &format!("{line}\nend"));
        assert!(all.iter().any(in_block), "{line} in a block");
    }
    for (op, line) in [
        (RESET, "ok"),
        (RESET, "no 1"),
        (RESET, "no 15"),
        (BLOCK, "ok\nend"),
        (BLOCK, "no 1\nend"),
        (BLOCK, "no 15\nend"),
        (BLOCK, "end"),
    ] {
        let asked = |asked: &Asked| asked.is_unchanged_by(op, line);
        assert!(all.iter().any(asked), "op {op}: {line}");
    }
}

/// The last call before the question was a block with such a field.
#[test]
fn the_summary_is_asked_after_refused_fields() {
    let all = all_asked();
    for number in [41, 43] {
        let is_refused = |asked: &Asked| {
            let last_line = asked
                .calls
                .last()
                .and_then(|(_, lines)| lines.lines().last());
            last_line.is_some_and(|line| line.starts_with(&format!("no {number} ")))
        };
        assert!(all.iter().any(is_refused), "{number}");
    }
}

/// Of an empty book and of one that has something, and the summary is asked after it.
#[test]
fn the_summary_is_asked_with_payloads() {
    let all = all_asked();
    for of_an_empty_book in [true, false] {
        let is_so = |asked: &Asked| {
            let bad = asked.calls.iter().filter(|(_, line)| line == "bad 14");
            bad.count() > 1 && is_empty(&asked.after) == of_an_empty_book
        };
        assert!(all.iter().any(is_so));
    }
}
