//! Torn files of any length: fields as the sky gives them, with long remarks, and damage.

use std::io::{self, Write};

use super::field_feed::FieldFeed;
use super::tearing::{foreign, tear};
use crate::block::remark_field;
use crate::random::SplitMix64;

/// One piece in so many has a long remark, and one in so many a long stretch.
const PIECES_TO_A_LONG_REMARK: usize = 12;
const PIECES_TO_A_LONG_STRETCH: usize = 200;

const MOST_FIELDS: usize = 300;
const LONG_REMARKS: (usize, usize) = (60_000, 65_535);
const LONG_STRETCHES: (usize, usize) = (300_001, 400_000);

/// So many bytes. The last field may be cut.
pub fn write_torn(seed: u64, count: u64, output: &mut impl Write) -> io::Result<()> {
    let mut left = count;
    for piece in Torn::new(seed) {
        let some = left.min(piece.len() as u64);
        output.write_all(&piece[..some as usize])?;
        left -= some;
        if left == 0 {
            break;
        }
    }
    Ok(())
}

/// An endless file, piece by piece.
pub struct Torn {
    pub random: SplitMix64,
    pub fields: FieldFeed,
}

impl Torn {
    pub fn new(seed: u64) -> Torn {
        let mut random = SplitMix64::new(seed);
        let fields = FieldFeed::new(random.number());
        Torn { random, fields }
    }

    /// At most so many fields, and at least one.
    pub fn some_fields(&mut self, most: usize) -> Vec<u8> {
        let count = 1 + self.random.below(most);
        self.fields.by_ref().take(count).flatten().collect()
    }

    /// Bytes of any kind, or fields that are none as long as the remark is whole.
    fn long_remark(&mut self) -> Vec<u8> {
        let length = between(&mut self.random, LONG_REMARKS);
        if self.random.below(2) == 0 {
            return remark_field(&self.random.bytes(length));
        }
        let fields = self.fields.by_ref().flatten();
        remark_field(&fields.take(length).collect::<Vec<u8>>())
    }

    /// With tags among them or without.
    fn long_stretch(&mut self) -> Vec<u8> {
        let length = between(&mut self.random, LONG_STRETCHES);
        match self.random.below(2) {
            0 => self.random.bytes(length),
            _ => foreign(&mut self.random, length),
        }
    }
}

fn between(random: &mut SplitMix64, (least, greatest): (usize, usize)) -> usize {
    least + random.below(greatest - least + 1)
}

impl Iterator for Torn {
    type Item = Vec<u8>;

    /// Fields, among them at times a long remark, torn once; at times a long stretch.
    fn next(&mut self) -> Option<Vec<u8>> {
        let mut piece = self.some_fields(MOST_FIELDS);
        if self.random.below(PIECES_TO_A_LONG_REMARK) == 0 {
            piece.extend(self.long_remark());
            piece.extend(self.some_fields(MOST_FIELDS));
        }
        tear(&mut self.random, &mut piece);
        if self.random.below(PIECES_TO_A_LONG_STRETCH) == 0 {
            piece.extend(self.long_stretch());
        }
        Some(piece)
    }
}
