//! Requests to the reader and the encoder.

mod reading;
mod writing;

use super::Input;
pub(super) use writing::values_beyond;

pub(super) fn add_all(input: &mut Input) {
    reading::add_all(input);
    writing::add_all(input);
}

/// Kinds that do not exist.
const WRONG_KINDS: [u8; 6] = [0, 9, 10, 127, 128, 255];
