//! Relative code: how a string's bits are sent as symbols on the line.

use crate::refusal::Refusal;
use crate::string::{NavString, BITS, IDLE_BIT};

/// How the tracking loop has locked: "upright if the first symbol is 0, inverted if
/// 1". The first symbol sent stands in the place of bit 85.
#[derive(Clone, Copy, Debug, PartialEq, Eq, Hash)]
pub enum Polarity {
    Upright,
    Inverted,
}

impl Polarity {
    pub fn of(symbols: &NavString) -> Polarity {
        match symbols.bit(IDLE_BIT) {
            false => Polarity::Upright,
            true => Polarity::Inverted,
        }
    }

    pub fn number(self) -> u8 {
        match self {
            Polarity::Upright => 0,
            Polarity::Inverted => 1,
        }
    }
}

/// "Each sent symbol is the data bit added modulo 2 to the symbol before;
/// before bit 85 stands 0."
pub fn to_relative(string: &NavString) -> Result<NavString, Refusal> {
    string.require_idle_zero()?;
    let mut symbols = NavString::zero();
    let mut symbol_before = false;
    for number in (1..=BITS).rev() {
        let symbol = string.bit(number) ^ symbol_before;
        symbols.set(number, symbol);
        symbol_before = symbol;
    }
    Ok(symbols)
}

/// "Each bit from 84 down is its symbol plus the symbol before it, modulo 2;
/// bit 85 is read as 0." The polarity is told beside: all 85 symbols inverted read as
/// the same string.
pub fn from_relative(symbols: &NavString) -> (NavString, Polarity) {
    let mut string = NavString::zero();
    for number in (1..IDLE_BIT).rev() {
        let symbol_before = symbols.bit(number + 1);
        string.set(number, symbols.bit(number) ^ symbol_before);
    }
    (string, Polarity::of(symbols))
}
