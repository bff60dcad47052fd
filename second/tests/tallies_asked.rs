//! The made inputs ask for tallies of every cause, at both ends. The seed is that of the
//! stored input.

use std::collections::{HashMap, HashSet};

use second::request::{Piece, Request, FRESH, OFFER, RESET, TALLIES};
use second::{make, trial};

/// The start of `trial` near the limit, and the limit.
const START: u32 = 4_294_967_293;
const LIMIT: u32 = 4_294_967_295;

/// Offered, clean, repaired, refused, then 2, 31, 32, 33, 4, 5, 6, 7, 8, 9.
type Counts = [u32; 14];

fn counts_in(line: &str) -> Option<Counts> {
    let numbers = line.strip_prefix("ok ")?.split(' ');
    let numbers: Vec<u32> = numbers.map(|number| number.parse().unwrap()).collect();
    Some(numbers.try_into().expect("fourteen numbers"))
}

fn asked(answers: Vec<(Piece, String)>) -> Vec<Counts> {
    let answers = answers.into_iter();
    answers
        .filter_map(|(piece, line)| match piece {
            Piece::Whole(Request { op: TALLIES, .. }) => counts_in(&line),
            _ => None,
        })
        .collect()
}

/// Every two tallies differ in some answer, so that none can stand in another's place.
fn require_all_different(asked: &[Counts]) {
    for first in 0..14 {
        for second in 0..first {
            let mut differing = asked.iter();
            let differ = differing.any(|counts| counts[first] != counts[second]);
            assert!(differ, "{second} and {first}");
        }
    }
}

#[test]
fn the_input_for_trial_asks_for_every_tally() {
    let input = make::trial_input(20260);
    let asked = asked(trial::answers(&input).collect());
    for tally in 0..14 {
        let has_some = asked.iter().filter(|counts| counts[tally] > 0).count();
        assert!(has_some > 20, "tally {tally}: {has_some}");
    }
    for counts in &asked {
        assert_eq!(counts[4..].iter().sum::<u32>(), counts[3]);
        assert_eq!(counts[1..4].iter().sum::<u32>(), counts[0]);
    }
    require_all_different(&asked);
}

#[test]
fn the_input_for_tallies_has_a_repair_on_every_string() {
    let input = make::tallies_input();
    let answers: Vec<(Piece, String)> = trial::answers(&input).collect();
    let lines = answers.iter().map(|(_, line)| line.as_str());
    let taken: Vec<&str> = lines.filter(|line| line.starts_with("taken")).collect();
    assert_eq!(taken.len(), 65_540);
    assert_eq!(taken[0], "taken 1 40 1 0");
    assert!(taken[1..].iter().all(|&line| line == "taken 1 40 0 0"));
    let expected = (65_532..=65_540).map(|count| {
        let mut counts = [0; 14];
        (counts[0], counts[2]) = (count, count);
        counts
    });
    assert_eq!(asked(answers), expected.collect::<Vec<Counts>>());
}

/// What came of an offer: clean, repaired, already held, or the number.
fn sort_of(line: &str) -> String {
    let parts: Vec<&str> = line.split(' ').collect();
    String::from(match parts.as_slice() {
        ["taken", _, _, "0", _] => "held",
        ["taken", _, "0", ..] => "clean",
        ["taken", ..] => "repaired",
        _ => line,
    })
}

const SORTS: [&str; 13] = [
    "clean", "repaired", "held", "no 2", "no 31", "no 32", "no 33", "no 4", "no 5", "no 6", "no 7",
    "no 8", "no 9",
];

/// The sorts that were offered to each channel, with their counts, until the next reset or
/// fresh station.
fn sorts_by_channel(answers: &[(Piece, String)]) -> HashMap<u8, HashMap<String, usize>> {
    let mut channels: HashMap<u8, HashMap<String, usize>> = HashMap::new();
    for (piece, line) in answers {
        match piece {
            Piece::Whole(Request { op: OFFER, payload }) => {
                let sorts = channels.entry(payload[0]).or_default();
                *sorts.entry(sort_of(line)).or_default() += 1;
            }
            Piece::Whole(Request {
                op: RESET | FRESH, ..
            }) => break,
            _ => (),
        }
    }
    channels
}

#[test]
fn the_input_for_the_limit_has_every_sort_on_a_channel_each_and_all_on_one() {
    let input = make::limit_input();
    let answers: Vec<(Piece, String)> = trial::answers_near_the_limit(&input).collect();
    assert!((200..2000).contains(&answers.len()), "{}", answers.len());
    let channels = sorts_by_channel(&answers);
    for sort in SORTS {
        let count = |sorts: &HashMap<String, usize>| sorts.get(sort).copied().unwrap_or(0);
        // At most one string before them, which is then held.
        let alone = channels
            .values()
            .filter(|sorts| count(sorts) >= 5 && sorts.values().sum::<usize>() <= count(sorts) + 1);
        assert_eq!(alone.count(), 1, "{sort}");
        assert!(count(&channels[&23]) >= 3, "{sort}");
    }
}

/// After each offer its channel is asked.
#[test]
fn the_input_for_the_limit_asks_after_each_offer() {
    let input = make::limit_input();
    let answers: Vec<(Piece, String)> = trial::answers_near_the_limit(&input).collect();
    for pair in answers.windows(2) {
        let [(Piece::Whole(first), _), (Piece::Whole(second), _)] = pair else {
            panic!("a request cut short");
        };
        if first.op == OFFER {
            assert_eq!((second.op, second.payload), (TALLIES, &first.payload[..1]));
        }
    }
}

#[test]
fn the_input_for_the_limit_leads_every_tally_there_and_from_zero_again() {
    let input = make::limit_input();
    let answers: Vec<(Piece, String)> = trial::answers_near_the_limit(&input).collect();
    let resets = answers.iter().filter(|(piece, _)| match piece {
        Piece::Whole(request) => [RESET, FRESH].contains(&request.op),
        Piece::Short(_) => false,
    });
    assert_eq!(resets.count(), 2);
    let asked = asked(answers);
    assert_eq!(asked[..24], [[START; 14]; 24]);
    for tally in 0..14 {
        let counts: HashSet<u32> = asked.iter().map(|counts| counts[tally]).collect();
        for count in [START, LIMIT - 1, LIMIT, 0, 1, 2, 3] {
            assert!(counts.contains(&count), "tally {tally}: {count}");
        }
    }
    require_all_different(&asked);
}

/// The tallies of the 48 channels, asked by their cards, until a fresh station is asked for:
/// the channel, whether something was offered to it before, and the counts.
fn asked_before_the_fresh_station(answers: &[(Piece, String)]) -> Vec<(u8, bool, Counts)> {
    let (mut offered, mut asked) = (HashSet::new(), Vec::new());
    for (piece, line) in answers {
        let Piece::Whole(request) = piece else {
            continue;
        };
        if request.op == FRESH {
            break;
        }
        let Some((_, Request { op, payload })) = request.asked_by() else {
            continue;
        };
        match (op, counts_in(line)) {
            (OFFER, _) => {
                offered.insert(payload[0]);
            }
            (TALLIES, Some(counts)) => {
                asked.push((payload[0], offered.contains(&payload[0]), counts));
            }
            _ => (),
        }
    }
    asked
}

/// Each row is asked for before anything is offered to it; and every row of card two is led to
/// the limit, and every tally in some of them.
#[test]
fn the_input_for_the_limit_shows_all_48_rows_near_it() {
    let input = make::limit_input();
    let answers: Vec<(Piece, String)> = trial::answers_near_the_limit(&input).collect();
    let asked = asked_before_the_fresh_station(&answers);
    for channel in 0..48 {
        assert!(asked.contains(&(channel, false, [START; 14])), "{channel}");
    }
    let of_card_two = asked.iter().filter(|(channel, ..)| *channel >= 24);
    let mut at_the_limit = HashSet::new();
    for (channel, _, counts) in of_card_two {
        let tallies = (0..14).filter(|&tally| counts[tally] == LIMIT);
        at_the_limit.extend(tallies.map(|tally| (*channel, tally)));
    }
    for channel in 24..48 {
        assert!(at_the_limit.contains(&(channel, 0)), "{channel}");
    }
    for tally in 0..14 {
        let channels = at_the_limit.iter().filter(|(_, other)| *other == tally);
        assert!(channels.count() >= 2, "{tally}");
    }
}
