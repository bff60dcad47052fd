//! One byte that says what follows, two bytes big-endian length, then that many bytes: so
//! requests are written, and the fields of a block.

const HEADER: usize = 3;

/// The first byte, the bytes that follow it, and what is left behind them; none where the
/// input ends before they do.
pub fn split_first(input: &[u8]) -> Option<(u8, &[u8], &[u8])> {
    let (&[first, high, low], behind) = input.split_first_chunk::<HEADER>()?;
    let length = usize::from(u16::from_be_bytes([high, low]));
    let (content, rest) = behind.split_at_checked(length)?;
    Some((first, content, rest))
}

/// Writes them at the end of an output.
pub fn append(output: &mut Vec<u8>, first: u8, content: &[u8]) {
    let length = u16::try_from(content.len()).expect("two bytes of length: at most 65,535");
    output.push(first);
    output.extend(length.to_be_bytes());
    output.extend(content);
}
