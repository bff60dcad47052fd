//! What befalls a string on its way from the satellite to the station.

use crate::alter::{with_bit_inverted, with_m};
use crate::known;
use crate::listing::Record;
use crate::random::SplitMix64;
use crate::relative;
use crate::station::card::CHANNELS_OF_A_CARD;
use crate::string::{NavString, BYTES, DATA, IDLE_BIT, PADDING};

/// A plain string, the channel that follows its satellite, and when it came.
#[derive(Clone)]
pub struct Sent {
    pub channel: u8,
    pub epoch: u32,
    pub string: NavString,
}

#[derive(Clone, Copy, Debug, PartialEq, Eq)]
pub enum Hearing {
    /// As it was sent.
    Good,
    Twice,
    /// First good, then with other data.
    Contradicted,
    Lost,
    /// Handed over after others of the same channel, with its own epoch.
    Late,
    /// So many bits of the plain string flipped.
    Flips(usize),
    /// One symbol wrong on the line: two neighbouring bits.
    WrongSymbol,
    /// Three flips that the check takes for one flip of bit 85.
    TakenForBit85,
    /// Good check bits, but a data bit is not the satellite's.
    OtherData,
    /// Good check bits over another m, or over m 0.
    OtherNumber,
    NoNumber,
    /// The caller's epoch is wrong by so much and up to 13 more.
    AheadBy(u32),
    BehindBy(u32),
    /// The caller's epoch is below m - 1.
    Early,
    WrongChannel,
    Padded,
    Noise,
}

/// How often each befalls a string of a thousand.
pub type Odds = [(usize, Hearing)];

pub const GOOD_CHANNEL: &Odds = &[
    (860, Hearing::Good),
    (30, Hearing::Twice),
    (10, Hearing::Contradicted),
    (20, Hearing::Lost),
    (20, Hearing::Late),
    (30, Hearing::Flips(1)),
    (10, Hearing::Flips(2)),
    (10, Hearing::WrongSymbol),
    (10, Hearing::OtherData),
];

pub const POOR_CHANNEL: &Odds = &[
    (453, Hearing::Good),
    (60, Hearing::Twice),
    (30, Hearing::Contradicted),
    (60, Hearing::Lost),
    (70, Hearing::Late),
    (90, Hearing::Flips(1)),
    (40, Hearing::Flips(2)),
    (20, Hearing::Flips(3)),
    (20, Hearing::WrongSymbol),
    (10, Hearing::TakenForBit85),
    (30, Hearing::OtherData),
    (20, Hearing::OtherNumber),
    (15, Hearing::NoNumber),
    (15, Hearing::AheadBy(1)),
    (2, Hearing::AheadBy(15)),
    (20, Hearing::BehindBy(1)),
    (10, Hearing::BehindBy(15)),
    (10, Hearing::Early),
    (10, Hearing::WrongChannel),
    (10, Hearing::Padded),
    (5, Hearing::Noise),
];

/// "A channel with a corroded antenna joint": hardly a string without a repair.
pub const CORRODED_CHANNEL: &Odds = &[
    (900, Hearing::Flips(1)),
    (50, Hearing::Flips(2)),
    (50, Hearing::Good),
];

pub fn drawn_by(random: &mut SplitMix64, odds: &Odds) -> Hearing {
    let all: usize = odds.iter().map(|(weight, _)| weight).sum();
    let mut left = random.below(all);
    for &(weight, hearing) in odds {
        if left < weight {
            return hearing;
        }
        left -= weight;
    }
    Hearing::Good
}

/// The record that the caller makes of it.
pub fn heard(random: &mut SplitMix64, hearing: Hearing, sent: &Sent) -> Record {
    let altered = Sent {
        string: altered_string(random, hearing, &sent.string),
        epoch: altered_epoch(random, hearing, sent),
        channel: altered_channel(random, hearing, sent.channel),
    };
    Record {
        symbols: altered_symbols(random, hearing, &altered.string),
        epoch: altered.epoch,
        channel: altered.channel,
    }
}

fn altered_string(random: &mut SplitMix64, hearing: Hearing, string: &NavString) -> NavString {
    let altered = match hearing {
        Hearing::TakenForBit85 => string.flipped(&known::FLIPS_TAKEN_FOR_BIT_85),
        Hearing::OtherData => {
            let bit = DATA.1 + random.below(DATA.0 - DATA.1 + 1);
            with_bit_inverted(string, bit)
        }
        Hearing::OtherNumber => with_m(string, 1 + random.below(15)),
        Hearing::NoNumber => with_m(string, 0),
        _ => *string,
    };
    let count = count_of_flips(random, hearing);
    altered.flipped(&flips_on_the_line(random, count))
}

/// One in four of the strings that will be refused for another reason has a flip,
/// too: the listing shows its repair.
fn count_of_flips(random: &mut SplitMix64, hearing: Hearing) -> usize {
    match hearing {
        Hearing::Flips(count) => count,
        Hearing::OtherData
        | Hearing::NoNumber
        | Hearing::AheadBy(_)
        | Hearing::BehindBy(_)
        | Hearing::Early => usize::from(random.below(4) == 0),
        _ => 0,
    }
}

/// Bit 85 is read as 0 whatever the symbols are, so it cannot be flipped there.
fn flips_on_the_line(random: &mut SplitMix64, count: usize) -> Vec<usize> {
    loop {
        let flips = random.bit_numbers(count);
        if !flips.contains(&IDLE_BIT) {
            return flips;
        }
    }
}

/// Past the last 32-bit number the caller's count begins again at 0; a wrong step
/// back ends at 0, or the channel would hear nothing more.
fn altered_epoch(random: &mut SplitMix64, hearing: Hearing, sent: &Sent) -> u32 {
    let up_to_13 = random.below(14) as u32;
    match hearing {
        Hearing::AheadBy(least) => sent.epoch.wrapping_add(least + up_to_13),
        Hearing::BehindBy(least) => sent.epoch.saturating_sub(least + up_to_13),
        Hearing::Early => random.below(sent.string.m().max(1)) as u32,
        _ => sent.epoch,
    }
}

fn altered_channel(random: &mut SplitMix64, hearing: Hearing, channel: u8) -> u8 {
    match hearing {
        Hearing::WrongChannel => {
            (CHANNELS_OF_A_CARD + random.below(256 - CHANNELS_OF_A_CARD)) as u8
        }
        _ => channel,
    }
}

/// Either polarity comes alike often.
fn altered_symbols(random: &mut SplitMix64, hearing: Hearing, string: &NavString) -> [u8; BYTES] {
    let mut symbols = in_some_polarity(random, string);
    if hearing == Hearing::WrongSymbol {
        symbols.flip(random.bit_numbers(1)[0]);
    }
    let mut bytes = symbols.to_bytes();
    match hearing {
        Hearing::Padded => bytes[BYTES - 1] |= random.one_of(&[1, 2, 4, PADDING]),
        Hearing::Noise => bytes.fill_with(|| random.number() as u8),
        _ => (),
    }
    bytes
}

pub fn in_some_polarity(random: &mut SplitMix64, string: &NavString) -> NavString {
    let symbols = relative::to_relative(string).expect("bit 85 is 0");
    match random.below(2) {
        0 => symbols,
        _ => symbols.inverted(),
    }
}
