//! Superframes at two sites: frames of equal days, of a later day at either of them, and such as
//! one alone has heard. Records of both cards have the health of the joined book; neither they nor
//! the tallies move.

use super::super::super::satellite::{on_day, Day, Upload, FRAMES_IN_A_SUPERFRAME};
use super::super::super::Input;
use super::super::cards::Asker;
use super::super::navigation::RIGHT_ROOM;
use super::super::SOME_START;
use super::{CallBy, Row, CARD_TWO, DAYS};
use crate::alter::with_code;
use crate::request::FIVE_OF;
use crate::station::card::{ONE, TWO};
use crate::station::frame::STRINGS_IN_A_FRAME;
use crate::string::NavString;
use crate::words::kinds::{ALMANAC_C, B, DAY, SATELLITE_TYPE};

const SAME: Day = DAYS[1];
const LATER: Day = DAYS[2];

/// Of the five frames, as each site hears them; none where it does not.
const DAYS_OF_FRAMES: [[Option<Day>; FRAMES_IN_A_SUPERFRAME]; 2] = [
    [Some(SAME), Some(LATER), Some(SAME), Some(SAME), None],
    [Some(SAME), Some(SAME), Some(LATER), None, Some(SAME)],
];

/// The channel that hears the frames.
const ALMANAC_CHANNEL: Row = (Asker::Unnamed, 0);

/// Satellites with a record at either site, one of each frame: their channels, and C of their
/// entries as the two sites have them.
const SATELLITES: [(usize, Row, [u128; 2]); FRAMES_IN_A_SUPERFRAME] = [
    (3, (Asker::Unnamed, 1), [0, 1]),
    (8, (Asker::Unnamed, 23), [1, 0]),
    (13, (CARD_TWO, 24), [1, 0]),
    (16, (CARD_TWO, 25), [1, 0]),
    (22, (CARD_TWO, 47), [1, 0]),
];

pub(super) fn add_all(input: &mut Input) {
    let uploads = input.uploads_of_two_sites();
    let [first, second] = [0, 1].map(|site| input.superframe_at(site, &uploads[site]));
    let rows = SATELLITES.map(|(_, row, _)| row);
    input.joined_both_ways([&first, &second], &rows);
    for histories in [[&first[..], &second], [&second, &first]] {
        input.sites(Input::tell_in_blocks, histories);
        input.ask_texts();
        input.join();
        input.ask_texts();
    }
}

fn card_number(asker: Asker) -> u8 {
    match asker {
        CARD_TWO => TWO,
        _ => ONE,
    }
}

impl Input {
    /// The second has other bits in every odd slot.
    fn uploads_of_two_sites(&mut self) -> [Upload; 2] {
        let (mut first, mut second) = (self.upload(), self.upload());
        for index in (1..second.pairs.len()).step_by(2) {
            second.pairs[index] = first.pairs[index];
        }
        for (slot, _, codes) in SATELLITES {
            for (upload, c) in [&mut first, &mut second].into_iter().zip(codes) {
                let [even, _] = &mut upload.pairs[slot - 1];
                *even = with_code(even, &ALMANAC_C, c);
            }
        }
        [first, second]
    }

    /// The frames that this site hears, then the records.
    fn superframe_at(&mut self, site: usize, upload: &Upload) -> Vec<CallBy> {
        let mut history = Vec::new();
        let satellite = self.satellite(9);
        for (number, day) in (1..).zip(DAYS_OF_FRAMES[site]) {
            let Some(day) = day else { continue };
            let mut strings = satellite.frame(upload, number);
            strings[4] = on_day(&strings[4], day);
            let start = SOME_START + (STRINGS_IN_A_FRAME * number) as u32;
            history.extend(self.heard_on(ALMANAC_CHANNEL, start, &strings));
        }
        for (slot, row, _) in SATELLITES {
            let strings = self.strings_of_health(slot, upload);
            history.extend(self.heard_on(row, SOME_START, &strings));
        }
        history
    }

    fn heard_on(
        &mut self,
        (asker, channel): Row,
        start: u32,
        strings: &[NavString],
    ) -> Vec<CallBy> {
        let offers = self.offers(channel, start, strings);
        offers.into_iter().map(|call| (asker, call)).collect()
    }

    /// Strings 1 to 5 of a satellite that calls itself fit: C alone tells its health.
    fn strings_of_health(&mut self, n: usize, upload: &Upload) -> [NavString; 5] {
        let [first, second, third, fourth] = self.satellite(n as u128).strings;
        let fourth = with_code(&fourth, &SATELLITE_TYPE, 0);
        [
            first,
            with_code(&second, &B, 0),
            third,
            with_code(&fourth, &DAY, 104),
            on_day(&upload.string_5, SAME),
        ]
    }

    /// What else needs the book: the navigation records and the carriers. String 5 does not.
    fn ask_texts(&mut self) {
        for (slot, (asker, channel), _) in SATELLITES {
            let card = card_number(asker);
            self.ask_row(asker, channel);
            self.navigation_in(card, channel, RIGHT_ROOM);
            self.request(FIVE_OF, &[card, channel]);
            self.ask_carriers(card, [slot as u8]);
        }
    }
}
