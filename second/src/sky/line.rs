//! A string on the line: its symbols in two halves each, then the time mark, as figure 3.6 draws
//! them.

use crate::relative::to_relative;
use crate::string::{NavString, BITS};

/// ICD 3.3.2.2: thirty symbols, neither in relative code nor in halves.
const TIME_MARK: &[u8; 30] = b"111110001101110101000010010110";

/// Each of them takes 10 ms, all of them two seconds.
pub const SYMBOLS_OF_A_STRING: usize = 2 * BITS + TIME_MARK.len();

/// From a plain string with bit 85 at 0: 1.7 seconds of data, 0.3 of the mark.
pub fn symbols_of(string: &NavString) -> Vec<u8> {
    let relative = to_relative(string).expect("bit 85 is 0");
    let data = (1..=BITS).rev().map(|number| relative.bit(number));
    let mark = TIME_MARK.iter().map(|digit| digit - b'0');
    data.flat_map(in_halves).chain(mark).collect()
}

/// The meander, 0 and then 1, is added to each symbol, modulo 2.
fn in_halves(symbol: bool) -> [u8; 2] {
    match symbol {
        false => [0, 1],
        true => [1, 0],
    }
}
