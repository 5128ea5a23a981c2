//! Tally records to lend: the one that a host keeps beside a board, and records that disagree.

use crate::page::Tally;
use crate::random::Random;

/// Records that disagree with this one: a count one more or less, or right but for its high bits; one
/// moved from a count to another; two counts exchanged; all 0; all as large as can be.
pub fn wrong_records(right: Tally) -> Vec<Tally> {
    const LESS: usize = usize::MAX;
    let mut wrong = vec![[0; 3], [usize::MAX; 3]];
    for (i, j) in [(0, 1), (1, 2), (2, 0)] {
        let added = |to_i: usize, to_j: usize| {
            let mut counts = right.counts();
            counts[i] = counts[i].wrapping_add(to_i);
            counts[j] = counts[j].wrapping_add(to_j);
            counts
        };
        wrong.extend([1, LESS, 1 << 16, 1 << 32].map(|more| added(more, 0)));
        wrong.extend([added(1, LESS), added(LESS, 1)]);
        let mut exchanged = right.counts();
        exchanged.swap(i, j);
        wrong.push(exchanged);
    }
    wrong.retain(|&counts| counts != right.counts());
    wrong.into_iter().map(Tally::from).collect()
}

/// The record that a host keeps. It is stale after a call that is done and was not lent it.
pub struct Kept {
    record: Tally,
}

impl Kept {
    pub fn new(record: Tally) -> Kept {
        Kept { record }
    }

    /// What a call is lent: nothing, a record that disagrees, or the kept one as it stands. At times
    /// the kept one is set right first.
    pub fn lend(&mut self, random: &mut Random, right: Tally) -> Option<Tally> {
        if random.chance(20) {
            self.record = right;
        }
        match random.below(10) {
            0 | 1 => None,
            2 => Some(*random.pick(&wrong_records(right))),
            _ => Some(self.record),
        }
    }

    /// After the call: what it was lent, and what that holds now.
    pub fn take_back(&mut self, lent: Option<Tally>, now: Option<Tally>) {
        if let (Some(lent), Some(now)) = (lent, now) {
            if lent == self.record {
                self.record = now;
            }
        }
    }
}
