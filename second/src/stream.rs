//! Inputs that are read piece by piece, each piece of the same length.

use std::io::{self, Read, Write};

/// Hands over each whole piece; bytes left over are not looked at.
pub fn for_each_whole<const LENGTH: usize>(
    mut input: impl Read,
    mut take: impl FnMut(&[u8; LENGTH]) -> io::Result<()>,
) -> io::Result<()> {
    let mut piece = [0; LENGTH];
    loop {
        match input.read_exact(&mut piece) {
            Ok(()) => take(&piece)?,
            Err(error) if error.kind() == io::ErrorKind::UnexpectedEof => return Ok(()),
            Err(error) => return Err(error),
        }
    }
}

/// Prints the answer to each piece. "Bytes left over print `short` and their count." Only one
/// piece is held at a time.
pub fn answer_each<const LENGTH: usize>(
    mut input: impl Read,
    mut output: impl Write,
    mut answer: impl FnMut(&[u8; LENGTH]) -> String,
) -> io::Result<()> {
    let mut bytes = Vec::with_capacity(LENGTH);
    loop {
        bytes.clear();
        input.by_ref().take(LENGTH as u64).read_to_end(&mut bytes)?;
        match bytes.as_slice().try_into() {
            Ok(piece) => writeln!(output, "{}", answer(piece))?,
            Err(_) if bytes.is_empty() => return output.flush(),
            Err(_) => writeln!(output, "short {}", bytes.len())?,
        }
    }
}
