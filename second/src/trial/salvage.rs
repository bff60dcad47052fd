//! Request 17: salvage of a torn file.

use super::{hex, Answer};
use crate::request::LONGEST_FILE;
use crate::salvage::{salvage_within, Rooms, Salvaged};

/// Payload: the room of the output in bytes, that of the list in stretches, then the file. A
/// refusal, too, has what was written before it on its line.
pub fn salvage(payload: &[u8]) -> Option<Answer> {
    let (&[output, list], file) = payload.split_first_chunk()?;
    if file.len() > LONGEST_FILE {
        return None;
    }
    let rooms = Rooms {
        output: usize::from(output),
        list: usize::from(list),
    };
    Some(Ok(line(&salvage_within(rooms, file))))
}

fn line(salvaged: &Salvaged) -> String {
    let end = match salvaged.end {
        Ok(()) => String::from("ok"),
        Err(refusal) => refusal.to_string(),
    };
    let kept = match salvaged.kept.as_slice() {
        [] => String::from("-"),
        bytes => hex(bytes),
    };
    let stretches = salvaged.skipped.iter();
    let stretches: String = stretches
        .map(|bytes| format!(" {}+{}", bytes.start, bytes.len()))
        .collect();
    format!("{end} {kept}{stretches}")
}
