//! What a host gets: the signed words of strings in their units, and the immediate record
//! from four strings.

use crate::refusal::Refusal;
use crate::scaled::Scaled;
use crate::station::record::KINDS_OF_A_RECORD;
use crate::string::BYTES;
use crate::words::signed::{signed_word, signed_words_of};
use crate::words::{self, kinds::Kind};

/// The signed word of this number in a plain string. Order of refusals: the reader's, for the
/// kind that the word stands in. No string is of the kind of a word that there is not: PLACE.
pub fn word(number: u8, bytes: &[u8]) -> Result<Scaled, Refusal> {
    let Some(signed) = signed_word(number) else {
        words::checked(bytes)?;
        return Err(Refusal::Place);
    };
    let (_, values) = words::read(signed.kind, bytes)?;
    Ok(signed.scaled(&values))
}

/// The words of one string or of several, and the signed ones in their units.
#[derive(Clone, Debug, Default, PartialEq, Eq)]
pub struct Numbers {
    pub words: Vec<i64>,
    pub scaled: Vec<(&'static str, Scaled)>,
}

impl Numbers {
    /// Adds those of a plain string, by the reader's refusals.
    pub fn read(&mut self, kind: &Kind, bytes: &[u8]) -> Result<(), Refusal> {
        let (_, values) = words::read(kind, bytes)?;
        let scaled = signed_words_of(kind).map(|signed| (signed.name, signed.scaled(&values)));
        self.scaled.extend(scaled);
        self.words.extend(values);
        Ok(())
    }
}

/// The immediate record: 26 words, twelve of them signed. "The reader's [refusals], in its
/// order, for strings 1 to 4 in turn; all four lengths are tested first."
pub fn record(strings: [&[u8]; 4]) -> Result<Numbers, Refusal> {
    if strings.iter().any(|bytes| bytes.len() != BYTES) {
        return Err(Refusal::Shape);
    }
    let mut record = Numbers::default();
    for (kind, bytes) in KINDS_OF_A_RECORD.iter().zip(strings) {
        record.read(kind, bytes)?;
    }
    Ok(record)
}
