//! Calls after a join, and joins among calls.

use super::super::super::satellite::Day;
use super::super::super::Input;
use super::super::almanac::{dated, with_c, Three};
use super::super::blocks::block_of;
use super::super::cards::Asker;
use super::super::{NEXT_START, SOME_START};
use super::{Row, CARD_TWO, DAYS};
use crate::request::RESET;
use crate::station::book::SLOTS;

const FIRST: Day = DAYS[0];
const SECOND: Day = DAYS[1];
const THIRD: Day = DAYS[2];
const FOURTH: Day = DAYS[3];

/// Slot, day and C; all else is the same in all entries of a slot.
type Shown = (usize, Day, u128);

/// What the two sites have when the second is joined into the first.
const BEFORE: [&[Shown]; 2] = [
    &[(3, SECOND, 0), (12, FIRST, 1), (24, THIRD, 1)],
    &[(3, THIRD, 0), (7, FIRST, 1), (24, SECOND, 1)],
];

/// What the first is shown then: less, equal to and greater than what either site has brought.
const AFTER: [Shown; 12] = [
    (3, SECOND, 1),
    (3, THIRD, 0),
    (3, THIRD, 1),
    (7, FIRST, 0),
    (7, FIRST, 1),
    (7, SECOND, 0),
    (24, SECOND, 1),
    (24, THIRD, 1),
    (24, FOURTH, 0),
    (12, FIRST, 0),
    (12, THIRD, 0),
    (1, FIRST, 0),
];

const ROWS: [Row; 3] = [(Asker::Unnamed, 0), (Asker::Unnamed, 23), (CARD_TWO, 24)];

/// As many as two sites hear in a superframe.
const RECORDS: usize = 300;

/// In quarters of what the site in use is told.
const PLACES_OF_A_JOIN: [usize; 4] = [0, 1, 2, 4];

pub(super) fn add_all(input: &mut Input) {
    let threes: Vec<Three> = (1..=SLOTS).map(|slot| input.three(slot)).collect();
    input.entries_shown_after_a_join(&threes);
    input.blocks_after_a_join(&threes);
    for day in [FIRST, THIRD] {
        input.frames_that_a_join_parts(day);
    }
    input.join_among_calls();
}

fn as_told(threes: &[Three], &(slot, day, c): &Shown) -> Three {
    with_c(dated(threes[slot - 1], day), c)
}

impl Input {
    fn joined_as_before(&mut self, threes: &[Three]) {
        let [first, second] = BEFORE.map(|shown| {
            let shown: Vec<Three> = shown.iter().map(|one| as_told(threes, one)).collect();
            self.shown_in_turn(ROWS[0], &shown)
        });
        self.sites(Input::tell, [&first, &second]);
        self.join();
        self.ask_entries();
    }

    /// Each on a row that is reset before, and all rows at the end. What the other site has is
    /// joined once more, and then into it what has come of all.
    fn entries_shown_after_a_join(&mut self, threes: &[Three]) {
        self.joined_as_before(threes);
        for (shown, (asker, channel)) in AFTER.iter().zip(ROWS.into_iter().cycle()) {
            self.ask(asker, RESET, &[channel]);
            let strings = self.as_some_pair(&as_told(threes, shown));
            self.strings_by(asker, channel, SOME_START, &strings);
            self.ask_slots([shown.0]);
            self.ask_summary();
        }
        for (asker, channel) in ROWS {
            self.ask(asker, RESET, &[channel]);
        }
        self.ask_site(&ROWS);
        self.join();
        self.other_station();
        self.join();
        self.ask_site(&ROWS);
    }

    /// An entry to a block.
    fn blocks_after_a_join(&mut self, threes: &[Three]) {
        self.joined_as_before(threes);
        for (shown, start) in AFTER.iter().zip((NEXT_START..).step_by(15)) {
            let strings = self.as_some_pair(&as_told(threes, shown));
            let offers = self.offers(1, start, &strings);
            self.block(&block_of(&offers));
            self.ask_summary();
        }
        self.ask_entries();
    }

    /// Some strings of a frame come before the join, which brings an entry of this day, and the
    /// others behind it; the last brings again what the frame has shown before.
    fn frames_that_a_join_parts(&mut self, day: Day) {
        for before in 0..=3 {
            let own = self.three(5);
            let others = dated(self.three(5), day);
            let others = self.shown_in_turn(ROWS[0], &[others]);
            let strings = self.frame(1);
            let own = self.shuffled(dated(own, SECOND).to_vec());
            self.sites(Input::tell, [&[], &others]);
            self.offer_in_frame(2, SOME_START, &own[..before]);
            self.join();
            self.offer_in_frame(2, SOME_START, &own[before..]);
            self.ask_slots([5]);
            self.offer_in_frame(2, SOME_START, &[strings[0], own[0]]);
            self.ask_slots([5]);
            self.ask_summary();
        }
    }

    /// Wherever it stands among the calls of the one, the book at the end is the same.
    fn join_among_calls(&mut self) {
        let [first, second] = self.one_sky_at::<2>(RECORDS);
        for quarters in PLACES_OF_A_JOIN {
            let (before, behind) = first.split_at(first.len() * quarters / 4);
            self.sites(Input::tell_in_blocks, [before, &second]);
            self.join();
            self.tell_in_blocks(behind);
            self.ask_entries();
            self.ask_channel(0);
            self.ask_channel(2);
        }
    }
}
