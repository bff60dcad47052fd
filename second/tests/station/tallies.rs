//! The counts of a channel, of all offers and by cause.

use second::hamming::Verdict;
use second::known::FLIPS_TAKEN_FOR_BIT_85;
use second::refusal::Refusal;
use second::relative::to_relative;
use second::station::card::ONE;
use second::station::tallies::Tallies;
use second::station::Station;
use second::string::NavString;

use crate::calls::{history, Answer, Call};
use crate::strings::*;

const LIMIT: u32 = 4_294_967_295;

/// In the order in which request 10 prints them.
const CAUSES: [u8; 10] = [2, 31, 32, 33, 4, 5, 6, 7, 8, 9];

fn counts(station: &Station, channel: usize) -> [u32; 4] {
    let tallies = station.tallies(ONE, channel).unwrap();
    [
        tallies.offered,
        tallies.clean,
        tallies.repaired,
        tallies.refused,
    ]
}

fn by_cause(station: &Station, channel: usize) -> [u32; 10] {
    station.tallies(ONE, channel).unwrap().by_cause
}

#[test]
fn each_answer_counts_for_what_it_is() {
    let mut station = Station::default();
    let string = string_1(1);
    let clean = offer(&mut station, 0, 100, &string);
    assert!(clean.is_ok());
    assert_eq!(counts(&station, 0), [1, 1, 0, 0]);
    // Already held counts by its verdict, too.
    assert!(offer(&mut station, 0, 100, &string).is_ok());
    assert!(offer(&mut station, 0, 100, &string.flipped(&[9])).is_ok());
    assert_eq!(counts(&station, 0), [3, 2, 1, 0]);
    assert_eq!(by_cause(&station, 0), [0; 10]);
    // Damaged; then repaired, but stale.
    assert!(offer(&mut station, 0, 100, &string.flipped(&[9, 10])).is_err());
    assert!(offer(&mut station, 0, 99, &string.flipped(&[9])).is_err());
    assert_eq!(counts(&station, 0), [5, 2, 1, 2]);
    assert_eq!(by_cause(&station, 0), [0, 0, 1, 0, 0, 0, 0, 1, 0, 0]);
}

/// One offer for each cause, to a channel that holds string 1 since epoch 100.
fn refused_for_each_cause() -> [(u8, u32, Vec<u8>); 10] {
    let string = string_1(1);
    let three_flips = string.flipped(&FLIPS_TAKEN_FOR_BIT_85);
    let symbols = |string: &NavString| {
        let symbols = to_relative(string).unwrap();
        symbols.to_bytes().to_vec()
    };
    [
        (2, 100, vec![0; 10]),
        (31, 100, symbols(&string.flipped(&[8]))),
        (32, 100, symbols(&string.flipped(&[9, 10]))),
        (33, 100, symbols(&string.flipped(&[84, 8, 3]))),
        (4, 100, symbols(&three_flips)),
        (5, 100, symbols(&with_m(&string, 0))),
        (6, 0, symbols(&string_3())),
        (7, 99, symbols(&string)),
        (8, 101, symbols(&string)),
        (9, 100, symbols(&string_1(2))),
    ]
}

/// "A refused string changes nothing but its channel's tallies" and "its own cause's".
#[test]
fn every_refusal_from_2_to_9_counts_for_its_own_cause() {
    let mut station = Station::default();
    take_all(&mut station, 0, 100, &[string_1(1)]);
    let offers = refused_for_each_cause();
    let mut causes = [0; 10];
    for count in 1..=40 {
        let index = 7 * count % 10;
        let (number, epoch, symbols) = &offers[index];
        let answer = station.offer(ONE, 0, *epoch, symbols);
        assert_eq!(answer.map_err(Refusal::number), Err(*number));
        causes[index] += 1;
        let count = count as u32;
        assert_eq!(counts(&station, 0), [count + 1, 1, 0, count]);
        assert_eq!(by_cause(&station, 0), causes);
    }
    assert_eq!(causes, [4; 10]);
}

#[test]
fn a_wrong_channel_counts_nowhere() {
    let mut station = Station::default();
    for channel in [24, 47, 48, 255] {
        assert!(offer(&mut station, channel, 100, &string_1(1)).is_err());
    }
    assert_eq!(station, Station::default());
}

#[test]
fn a_reset_counts_from_zero_on_its_channel_alone() {
    let mut station = Station::default();
    for channel in [0, 1] {
        take_all(&mut station, channel, 100, &[string_1(1), string_3()]);
        assert!(offer(&mut station, channel, 99, &string_1(1)).is_err());
    }
    station.reset(ONE, 0).unwrap();
    assert_eq!(station.tallies(ONE, 0), Ok(Tallies::default()));
    assert_eq!(counts(&station, 1), [3, 2, 0, 1]);
    assert_eq!(by_cause(&station, 1), [0, 0, 0, 0, 0, 0, 0, 1, 0, 0]);
}

/// What the calls since each channel's reset were answered, counted once more.
#[derive(Clone, Default)]
struct Counted {
    counts: [u32; 4],
    by_cause: [u32; 10],
}

impl Counted {
    fn count(&mut self, answer: &Answer) {
        let which = match answer {
            Ok(None) | Err(Refusal::Channel) => return,
            Ok(Some(taken)) if taken.verdict == Verdict::Clean => 1,
            Ok(Some(_)) => 2,
            Err(_) => 3,
        };
        self.counts[0] += 1;
        self.counts[which] += 1;
        if let Err(refusal) = answer {
            let number = refusal.number();
            let index = CAUSES.iter().position(|&cause| cause == number);
            self.by_cause[index.unwrap()] += 1;
        }
    }
}

/// "Each tally is still counted from the history since reset", and the ten add up to refused.
#[test]
fn tallies_are_the_counts_of_the_history_and_the_ten_add_up_to_refused() {
    let mut seen = [0; 10];
    for seed in 0..100 {
        let mut station = Station::default();
        let mut counted = vec![Counted::default(); 24];
        for call in history(seed) {
            let answer = call.answer(&mut station);
            let channel = usize::from(call.channel());
            let Some(row) = counted.get_mut(channel) else {
                continue;
            };
            match call {
                Call::Offer { .. } => row.count(&answer),
                Call::Reset { .. } => *row = Counted::default(),
            }
            assert_eq!(counts(&station, channel), row.counts, "history {seed}");
            let causes = by_cause(&station, channel);
            assert_eq!(causes, row.by_cause, "history {seed}");
            let refused = counts(&station, channel)[3];
            assert_eq!(causes.iter().sum::<u32>(), refused, "history {seed}");
        }
        for row in counted {
            for (seen, count) in seen.iter_mut().zip(row.by_cause) {
                *seen += count;
            }
        }
    }
    assert!(seen.iter().all(|&count| count > 10), "{seen:?}");
}

/// "At a repair on every string it passes 65,535", and goes on.
#[test]
fn a_tally_passes_65_535() {
    let mut station = Station::default();
    let string = string_1(1).flipped(&[40]);
    for _ in 0..65_540 {
        offer(&mut station, 0, 100, &string).unwrap();
    }
    assert_eq!(counts(&station, 0), [65_540, 0, 65_540, 0]);
}

/// Clean, repaired and each cause; every tally stops alone.
#[test]
fn every_tally_stays_at_its_limit() {
    for (index, (number, epoch, symbols)) in refused_for_each_cause().into_iter().enumerate() {
        let mut station = Station::with_tallies_at(LIMIT - 3);
        take_all(&mut station, 0, 100, &[string_1(1)]);
        for left in [2, 1, 0, 0, 0] {
            let answer = station.offer(ONE, 0, epoch, &symbols);
            assert_eq!(answer.map_err(Refusal::number), Err(number));
            let mut causes = [LIMIT - 3; 10];
            causes[index] = LIMIT - left;
            assert_eq!(by_cause(&station, 0), causes);
            let offered = (LIMIT - left).saturating_add(1);
            let expected = [offered, LIMIT - 2, LIMIT - 3, LIMIT - left];
            assert_eq!(counts(&station, 0), expected);
        }
    }
    for (flips, which) in [(&[][..], 1), (&[40], 2)] {
        let mut station = Station::with_tallies_at(LIMIT - 1);
        for _ in 0..3 {
            offer(&mut station, 5, 100, &string_1(1).flipped(flips)).unwrap();
            let mut expected = [LIMIT - 1; 4];
            expected[0] = LIMIT;
            expected[which] = LIMIT;
            assert_eq!(counts(&station, 5), expected);
            assert_eq!(by_cause(&station, 5), [LIMIT - 1; 10]);
        }
    }
}

#[test]
fn a_reset_counts_from_zero_after_the_limit() {
    let mut station = Station::with_tallies_at(LIMIT);
    station.reset(ONE, 0).unwrap();
    take_all(&mut station, 0, 100, &[string_1(1)]);
    assert_eq!(counts(&station, 0), [1, 1, 0, 0]);
    assert_eq!(by_cause(&station, 0), [0; 10]);
    assert_eq!(station.tallies(ONE, 1), Ok(Tallies::all_at(LIMIT)));
}
