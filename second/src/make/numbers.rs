//! Requests for numbers: words as floats, and the immediate record from four strings.

mod records;
mod words;

use super::faults::{with_faults, Fault};
use super::Input;
use crate::words::kinds::Kind;

pub(super) fn add_all(input: &mut Input) {
    words::add_all(input);
    records::add_all(input);
}

impl Input {
    /// A string of this kind with these faults; a good one where there are none.
    fn faulty(&mut self, kind: &Kind, faults: &[Fault]) -> Vec<u8> {
        let string = self.random.string_of(kind);
        with_faults(&mut self.random, kind, &string, faults)
    }
}
