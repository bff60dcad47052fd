//! Histories of calls: what was heard on a few channels, and resets.

use second::listing::Record;
use second::make;
use second::random::SplitMix64;
use second::refusal::Refusal;
use second::station::card::ONE;
use second::station::row::Taken;
use second::station::Station;

/// Channels with few, many and very many wrong strings, and one whose epochs pass 2^32;
/// those above 23 are kept, too.
const CHANNELS: [u8; 4] = [0, 1, 11, 22];

#[derive(Clone)]
pub enum Call {
    Offer {
        channel: u8,
        epoch: u32,
        symbols: Vec<u8>,
    },
    Reset {
        channel: u8,
    },
}

/// "One-byte tag, two-byte big-endian length."
pub fn field(tag: u8, content: &[u8]) -> Vec<u8> {
    let length = content.len();
    let header = [tag, (length / 256) as u8, (length % 256) as u8];
    [&header, content].concat()
}

/// A reset has no more to say than that it was made.
pub type Answer = Result<Option<Taken>, Refusal>;

impl Call {
    /// A field cannot hold a string that is cut short.
    pub fn field(&self) -> Option<Vec<u8>> {
        match self {
            Call::Offer {
                channel,
                epoch,
                symbols,
            } if symbols.len() == 11 => {
                let content = [&[*channel], &epoch.to_be_bytes()[..], symbols].concat();
                Some(field(1, &content))
            }
            Call::Offer { .. } => None,
            Call::Reset { channel } => Some(field(2, &[*channel])),
        }
    }

    pub fn channel(&self) -> u8 {
        let (Call::Offer { channel, .. } | Call::Reset { channel }) = self;
        *channel
    }

    /// The same with all symbols inverted; padding stays.
    pub fn inverted(&self) -> Call {
        let mut call = self.clone();
        if let Call::Offer { symbols, .. } = &mut call {
            for (index, byte) in symbols.iter_mut().enumerate() {
                *byte ^= if index == 10 { 0xF8 } else { 0xFF };
            }
        }
        call
    }

    pub fn answer(&self, station: &mut Station) -> Answer {
        self.answer_to(ONE, station)
    }

    /// What this card is answered.
    pub fn answer_to(&self, card: u8, station: &mut Station) -> Answer {
        match self {
            Call::Offer {
                channel,
                epoch,
                symbols,
            } => {
                let taken = station.offer(card, usize::from(*channel), *epoch, symbols);
                taken.map(Some)
            }
            Call::Reset { channel } => station.reset(card, usize::from(*channel)).map(|()| None),
        }
    }
}

/// What was heard on a few channels; one string of fifty is cut short, and there are as
/// many resets.
pub fn history(seed: u64) -> Vec<Call> {
    let mut random = SplitMix64::new(seed);
    let mut bytes = Vec::new();
    make::write_listing(random.number(), 1500, &mut bytes).unwrap();
    let (records, _) = bytes.as_chunks();
    let mut calls = Vec::new();
    for record in records.iter().map(Record::from_bytes) {
        let channel = record.channel;
        if channel < 24 && !CHANNELS.contains(&channel) {
            continue;
        }
        let mut symbols = record.symbols.to_vec();
        match random.below(50) {
            0 => symbols.truncate(random.below(11)),
            1 => calls.push(Call::Reset { channel }),
            _ => (),
        }
        calls.push(Call::Offer {
            channel,
            epoch: record.epoch,
            symbols,
        });
    }
    calls
}
