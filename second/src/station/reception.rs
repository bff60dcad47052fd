//! The way of a string into the station: "the station takes the relative form only".

use crate::hamming::{self, Verdict};
use crate::refusal::Refusal;
use crate::relative::{from_relative, Polarity};
use crate::string::NavString;

/// The plain string as the check leaves it, and what is told of its way.
#[derive(Clone, Copy, Debug, PartialEq, Eq)]
pub struct Received {
    pub string: NavString,
    pub verdict: Verdict,
    pub polarity: Polarity,
}

/// Order of refusals: 2, 31 to 33, 4.
pub fn receive(symbols: &[u8]) -> Result<Received, Refusal> {
    let symbols = NavString::from_bytes(symbols)?;
    let (string, polarity) = from_relative(&symbols);
    let (verdict, string) = hamming::check(&string)?;
    Ok(Received {
        string,
        verdict,
        polarity,
    })
}
