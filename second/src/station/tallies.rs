//! The counts of a channel since its reset.

use crate::hamming::Verdict;
use crate::refusal::{Damage, Refusal};

/// "Each refusal that an offer on a valid channel can get", in the order of tests.
pub const CAUSES: [Refusal; 10] = [
    Refusal::Shape,
    Refusal::Damaged(Damage::WholeAlone),
    Refusal::Damaged(Damage::WholeMissing),
    Refusal::Damaged(Damage::PlaceAbove85),
    Refusal::Idle,
    Refusal::Number,
    Refusal::Early,
    Refusal::Stale,
    Refusal::OffBeat,
    Refusal::Conflict,
];

/// "32 bits wide and stay at 4,294,967,295", each for itself.
#[derive(Clone, Copy, Debug, Default, PartialEq, Eq)]
pub struct Tallies {
    pub offered: u32,
    pub clean: u32,
    pub repaired: u32,
    pub refused: u32,
    /// "Beside *refused*" one for each of the causes.
    pub by_cause: [u32; CAUSES.len()],
}

impl Tallies {
    /// Every tally has the same count.
    pub fn all_at(count: u32) -> Tallies {
        Tallies {
            offered: count,
            clean: count,
            repaired: count,
            refused: count,
            by_cause: [count; CAUSES.len()],
        }
    }

    /// One offer on this channel, by what came of it.
    pub fn count(&mut self, outcome: Result<Verdict, Refusal>) {
        count_one(&mut self.offered);
        match outcome {
            Ok(Verdict::Clean) => count_one(&mut self.clean),
            Ok(Verdict::Repaired { .. }) => count_one(&mut self.repaired),
            Err(refusal) => {
                count_one(&mut self.refused);
                count_one(self.of_cause(refusal));
            }
        }
    }

    fn of_cause(&mut self, refusal: Refusal) -> &mut u32 {
        let index = CAUSES.iter().position(|&cause| cause == refusal);
        &mut self.by_cause[index.expect("an offer on a valid channel is refused by 2 to 9")]
    }
}

fn count_one(tally: &mut u32) {
    *tally = tally.saturating_add(1);
}
