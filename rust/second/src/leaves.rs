//! The count of order 1 readings, and when it is surely above the limit.

use crate::Fault;

/// The full leaf count is greater than the limit.
pub struct AboveLimit;

pub struct Leaves {
    count: u128,
    limit: u128,
    fault: Fault,
    /// How many rounds under way are left out of the count (by a fault).
    left_out: usize,
}

impl Leaves {
    pub fn new(limit: usize, fault: Fault) -> Leaves {
        Leaves { count: 0, limit: limit as u128, fault, left_out: 0 }
    }

    pub fn count(&self) -> u128 {
        self.count
    }

    /// The count only grows, so once it is above the limit the full count is too.
    pub fn add(&mut self, more: u128) -> Result<(), AboveLimit> {
        if self.left_out == 0 {
            self.count = self.count.saturating_add(more);
        }
        let above = match self.fault {
            Fault::EqualIsTwelve => self.count >= self.limit,
            _ => self.count > self.limit,
        };
        if above {
            return Err(AboveLimit);
        }
        Ok(())
    }

    /// Before round `round` of a reading at that depth, 0 for the reading asked for.
    pub fn round_starts(&mut self, depth: usize, round: usize) {
        if self.fault == Fault::LastOutermostRoundLeaves && depth == 0 {
            self.count = 0;
        }
        self.left_out += self.leaves_out(depth, round) as usize;
    }

    /// After that round.
    pub fn round_ends(&mut self, depth: usize, round: usize) {
        self.left_out -= self.leaves_out(depth, round) as usize;
    }

    fn leaves_out(&self, depth: usize, round: usize) -> bool {
        match self.fault {
            Fault::FirstOutermostRoundLeaves => depth == 0 && round > 1,
            Fault::InnerFirstRoundLeaves => depth > 0 && round > 1,
            _ => false,
        }
    }
}
