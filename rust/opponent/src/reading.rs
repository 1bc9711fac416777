//! Readings of every order.

use crate::leaf;
use crate::places;
use crate::second_order;
use crate::word::{self, numbers, present, Word};
use crate::workspace::{Exchanged, Level};

/// How a reading ends.
#[derive(Clone, Copy, PartialEq, Eq, Debug)]
pub enum Outcome {
    Accepted,
    Tie,
    Flipping,
    Unsettled,
    /// The full leaf count is above the limit.
    Exhausted,
}

/// The limits and the count of one call.
pub struct Reader<'a> {
    pub round_limit: usize,
    pub leaf_limit: u64,
    pub leaves: u64,
    pub exchanged: &'a mut Exchanged,
}

/// The least leaf count of a reading: one round at every depth.
pub fn least_leaves(m: usize, r: usize) -> u64 {
    (m + 2 - r..=m).map(|j| (1 << j) - 1).product()
}

impl Reader<'_> {
    /// Reads the first level's word in place; outcome and rounds.
    pub fn reading(&mut self, m: usize, r: usize, levels: &mut [Level]) -> (Outcome, usize) {
        match r {
            0 => (order_zero(m, &mut levels[0].word), 0),
            1 => (self.order_one(m, &mut levels[0].word), 0),
            _ => self.rounds(m, r, levels),
        }
    }

    fn order_one(&mut self, m: usize, word: &mut Word) -> Outcome {
        self.leaves += 1;
        let Some(nearest) = leaf::nearest(m, &word[..]) else {
            return Outcome::Tie;
        };
        for (j, number) in word[..numbers(m)].iter_mut().enumerate() {
            *number = nearest.number(j);
        }
        Outcome::Accepted
    }

    /// A codeword settles in one round at every depth, so its leaves are known without reading them.
    fn rounds(&mut self, m: usize, r: usize, levels: &mut [Level]) -> (Outcome, usize) {
        let least = least_leaves(m, r);
        for round in 1..=self.round_limit {
            if self.leaves + least > self.leaf_limit {
                return (Outcome::Exhausted, 0);
            }
            if word::is_codeword(m, r, &levels[0].word) {
                self.leaves += least;
                return (Outcome::Accepted, round);
            }
            if !self.votes_counted(m, r, levels) {
                return (Outcome::Exhausted, 0);
            }
            if !flip(m, &mut levels[0]) {
                return (Outcome::Unsettled, round);
            }
        }
        (Outcome::Flipping, self.round_limit)
    }

    /// Counts the votes of a round; false when the leaf limit is passed.
    fn votes_counted(&mut self, m: usize, r: usize, levels: &mut [Level]) -> bool {
        levels[0].votes.clear(m, numbers(m));
        levels[0].voters = 0;
        if r > 2 {
            return (1..1 << m).all(|b| self.direction(m, r, b, levels));
        }
        self.leaves += (1 << m) - 1;
        second_order::round(m, &mut levels[0], self.exchanged);
        true
    }

    /// Reads one direction's projection and counts its votes.
    fn direction(&mut self, m: usize, r: usize, b: usize, levels: &mut [Level]) -> bool {
        let (level, inner) = levels.split_first_mut().expect("a level for each order");
        let mut projection = [0; 16];
        places::project(m, b, &level.word, &mut projection);
        inner[0].word = projection;
        match self.reading(m - 1, r - 1, inner).0 {
            Outcome::Exhausted => return false,
            Outcome::Accepted => {}
            _ => return true,
        }
        level.voters += 1;
        let mut differs = false;
        for (projected, decoded) in projection.iter_mut().zip(&inner[0].word) {
            *projected ^= decoded;
            differs |= *projected != 0;
        }
        if differs {
            let mut vote = [0; 16];
            places::spread(m, b, &projection, &mut vote);
            level.votes.add(m, numbers(m), &vote);
        }
        true
    }
}

fn order_zero(m: usize, word: &mut Word) -> Outcome {
    let word = &mut word[..numbers(m)];
    let ones: u32 = word.iter().map(|number| number.count_ones()).sum();
    word.fill(if 2 * ones > 1 << m { u64::MAX } else { 0 });
    if 2 * ones == 1 << m {
        Outcome::Tie
    } else {
        Outcome::Accepted
    }
}

/// Makes the flips; whether there were any.
fn flip(m: usize, level: &mut Level) -> bool {
    let mut flipped = 0;
    for (j, number) in level.word[..numbers(m)].iter_mut().enumerate() {
        let flips = level.votes.flips(m, j, level.voters) & present(m);
        *number ^= flips;
        flipped |= flips;
    }
    flipped != 0
}
