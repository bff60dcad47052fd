//! A torn file for a program that reads it in windows of 256 KiB: fields, long remarks and
//! stretches lie across the edges of windows, and where a window has just room left for the
//! two longest fields.

use super::tearing::{foreign, tear};
use super::torn::Torn;
use crate::block::{remark_field, reset_field};

const WINDOW: usize = 256 * 1024;
const LONGEST_FIELD: usize = 3 + LONGEST_REMARK;
const LONGEST_REMARK: usize = u16::MAX as usize;
const LONG_REMARK: usize = 60_000;

/// From here the two longest fields end with the window.
const LAST_PLACE: usize = WINDOW - 2 * LONGEST_FIELD;

/// So much before a place that matters all fields are good.
const GOOD_BEFORE: usize = 1_500;
const FIELDS_OF_A_PIECE: usize = 12;

pub fn file(seed: u64) -> Vec<u8> {
    let mut edges = Edges {
        bytes: Vec::new(),
        torn: Torn::new(seed),
    };
    edges.two_longest_past_the_first_edge();
    edges.stretch_longer_than_a_window();
    edges.one_remark_at_the_end();
    edges.bytes
}

struct Edges {
    bytes: Vec<u8>,
    torn: Torn,
}

impl Edges {
    /// Small fields with damage among them; the next byte stands at this place.
    fn small_fields_to(&mut self, place: usize) {
        while place - self.bytes.len() > 2 * GOOD_BEFORE {
            let mut piece = self.torn.some_fields(FIELDS_OF_A_PIECE);
            let longest = place - self.bytes.len() - GOOD_BEFORE;
            tear(&mut self.torn.random, &mut piece);
            piece.truncate(longest);
            self.bytes.extend(piece);
        }
        while place - self.bytes.len() > GOOD_BEFORE / 2 {
            let field = self.torn.fields.next().expect("an endless feed");
            self.bytes.extend(field);
        }
        let left = place - self.bytes.len();
        self.remark(left - 3);
    }

    fn remark(&mut self, length: usize) {
        let content = self.torn.random.bytes(length);
        self.bytes.extend(remark_field(&content));
    }

    /// Bytes that are no field, up to this place.
    fn stretch_to(&mut self, place: usize) {
        let count = place - self.bytes.len();
        self.bytes.extend(foreign(&mut self.torn.random, count));
    }

    /// One good field that ends at this place, within a stretch: it is not enough.
    fn one_reset_before(&mut self, place: usize) {
        let reset = reset_field(7);
        self.stretch_to(place - reset.len());
        self.bytes.extend(reset);
    }

    /// The work goes on one byte after the last place whose two longest fields the first
    /// window holds: their last byte is in the next one. A stretch follows at once.
    fn two_longest_past_the_first_edge(&mut self) {
        self.small_fields_to(40_000);
        self.remark(LONG_REMARK);
        self.small_fields_to(LAST_PLACE - 50);
        self.one_reset_before(LAST_PLACE - 20);
        self.stretch_to(LAST_PLACE + 1);
        self.remark(LONGEST_REMARK);
        self.remark(LONGEST_REMARK);
        self.stretch_to(WINDOW + 8);
    }

    /// In it stand a longest remark and, up to the second edge, a reset: each of them good,
    /// with no good field behind it.
    fn stretch_longer_than_a_window(&mut self) {
        self.small_fields_to(WINDOW + 30_000);
        self.remark(LONG_REMARK);
        self.small_fields_to(WINDOW + 95_000);
        self.stretch_to(WINDOW + LAST_PLACE);
        let content = foreign(&mut self.torn.random, LONGEST_REMARK);
        self.bytes.extend(remark_field(&content));
        self.one_reset_before(2 * WINDOW);
        self.stretch_to(2 * WINDOW + 97_000);
    }

    /// It lies across the last place of the third window, and ends the file.
    fn one_remark_at_the_end(&mut self) {
        self.small_fields_to(2 * WINDOW + 117_000);
        self.one_reset_before(2 * WINDOW + 117_040);
        self.stretch_to(2 * WINDOW + 117_060);
        self.remark(LONG_REMARK);
    }
}
