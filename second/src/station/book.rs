//! The almanac book that all channels share.

use crate::refusal::Refusal;
use crate::string::{NavString, DATA};
use crate::words::kinds::{ALMANAC_C, EVEN, H, L, ODD};

pub const SLOTS: usize = 24;

/// Bit 9 of an odd string is l: it "belongs to the sender" and is no part of an entry.
const DATA_WITHOUT_L: (usize, usize) = (80, 10);

/// "Two entries for one nA compare by day, then by the even string's bits 80..9 as
/// a number, then by the odd string's bits 80..10": in the order of the fields.
#[derive(Clone, Copy, Debug, PartialEq, Eq, PartialOrd, Ord)]
pub struct Entry {
    pub day: i64,
    pub even: u128,
    pub odd: u128,
}

impl Entry {
    /// "An entry is its day and these bits and no more."
    pub fn of(day: i64, even: &NavString, odd: &NavString) -> Entry {
        Entry {
            day,
            even: even.number(DATA),
            odd: odd.number(DATA_WITHOUT_L),
        }
    }

    /// The two halves again, without m, l and check bits.
    fn halves(&self) -> (NavString, NavString) {
        let (mut even, mut odd) = (NavString::zero(), NavString::zero());
        even.set_number(DATA, self.even);
        odd.set_number(DATA_WITHOUT_L, self.odd);
        (even, odd)
    }

    /// The seven words of the even half and the five of the odd half, which are all
    /// but l, in the paper's order.
    pub fn words(&self) -> Vec<i64> {
        let (even, odd) = self.halves();
        let words_of_odd = ODD.words.iter().filter(|&&word| word != L);
        let words_of_even = EVEN.words.iter().map(|word| word.value_in(&even));
        words_of_even
            .chain(words_of_odd.map(|word| word.value_in(&odd)))
            .collect()
    }

    /// H, its meaning: the number of the carrier that the satellite sends on.
    pub fn carrier(&self) -> i64 {
        let (_, odd) = self.halves();
        H.value_in(&odd)
    }

    /// C: the satellite was fit for use when the almanac was uploaded.
    pub fn is_operable(&self) -> bool {
        self.even >> (ALMANAC_C.top_bit() - DATA.1) & 1 == 1
    }
}

/// "How many slots are filled, the oldest day and the newest." "An empty book has count
/// 0 and both days 0."
#[derive(Clone, Copy, Debug, PartialEq, Eq)]
pub struct Summary {
    pub count: usize,
    pub oldest: i64,
    pub newest: i64,
}

/// The entry of slot s, if one was shown, is `slots[s - 1]`.
#[derive(Clone, Debug, Default, PartialEq, Eq)]
pub struct Book {
    slots: [Option<Entry>; SLOTS],
}

impl Book {
    /// "The book keeps the greater"; any entry is greater than none.
    pub fn bring(&mut self, slot: usize, entry: Entry) {
        let kept = &mut self.slots[slot - 1];
        *kept = (*kept).max(Some(entry));
    }

    /// "Joining takes, slot by slot, the greater entry by the existing comparison"; an empty
    /// slot is the least.
    pub fn join(&mut self, other: &Book) {
        for (kept, others) in self.slots.iter_mut().zip(other.slots) {
            *kept = (*kept).max(others);
        }
    }

    /// Order of refusals: 14, 13.
    pub fn entry(&self, slot: usize) -> Result<Entry, Refusal> {
        let index = slot.checked_sub(1).ok_or(Refusal::Slot)?;
        let entry = self.slots.get(index).ok_or(Refusal::Slot)?;
        entry.ok_or(Refusal::Nothing)
    }

    /// Nothing is kept for it: it is a walk over all slots each time.
    pub fn summary(&self) -> Summary {
        let entries = self.slots.iter().flatten();
        let days: Vec<i64> = entries.map(|entry| entry.day).collect();
        Summary {
            count: days.len(),
            oldest: days.iter().min().copied().unwrap_or(0),
            newest: days.iter().max().copied().unwrap_or(0),
        }
    }
}
