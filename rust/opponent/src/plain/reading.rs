//! Readings of every order; a refusal is its number, acceptance 0.

use super::cosets::{self, Rows};
use super::leaf;

/// What the reading at one depth keeps; the first row is the word.
pub struct Level {
    pub rows: Rows<u8>,
    projection: [u8; 512],
    votes: Rows<i16>,
    /// How many directions of the round did not abstain.
    voters: i16,
}

pub struct Workspace {
    pub(super) levels: Vec<Level>,
}

impl Default for Workspace {
    fn default() -> Workspace {
        let level = || Level { rows: [[0; 1024]; 8], projection: [0; 512], votes: [[0; 1024]; 8], voters: 0 };
        Workspace { levels: (0..11).map(|_| level()).collect() }
    }
}

/// The limits and the count of one call.
pub struct Reader {
    pub round_limit: usize,
    pub leaf_limit: u64,
    pub leaves: u64,
}

impl Reader {
    /// Reads the first level's word in place; refusal and rounds.
    pub fn reading(&mut self, m: usize, r: usize, levels: &mut [Level]) -> (u8, usize) {
        let word = &mut levels[0].rows[0][..1 << m];
        match r {
            0 => (order_zero(word), 0),
            1 => (self.order_one(word), 0),
            _ => self.rounds(m, r, levels),
        }
    }

    /// Counted one by one, and stopped at the leaf limit.
    fn order_one(&mut self, word: &mut [u8]) -> u8 {
        if self.leaves == self.leaf_limit {
            return 12;
        }
        self.leaves += 1;
        if leaf::nearest(word) {
            0
        } else {
            9
        }
    }

    fn rounds(&mut self, m: usize, r: usize, levels: &mut [Level]) -> (u8, usize) {
        let n = 1 << m;
        for round in 1..=self.round_limit {
            let level = &mut levels[0];
            cosets::fill_rows(n, &mut level.rows);
            level.votes.iter_mut().for_each(|row| row[..n].fill(0));
            level.voters = 0;
            if !(1..n).all(|b| self.direction(m, r, b, levels)) {
                return (12, 0);
            }
            let level = &mut levels[0];
            if !cosets::flip(&mut level.rows[0][..n], &level.votes, level.voters) {
                let settled = cosets::is_codeword(r, &level.rows[0][..n]);
                return (if settled { 0 } else { 11 }, round);
            }
        }
        (10, self.round_limit)
    }

    /// Reads one direction's projection and counts its votes; false when the leaf limit is passed.
    fn direction(&mut self, m: usize, r: usize, b: usize, levels: &mut [Level]) -> bool {
        let (level, inner) = levels.split_first_mut().expect("a level for each order");
        let n = 1 << m;
        let projection = &mut level.projection[..n / 2];
        cosets::project(b, n, &level.rows, projection);
        inner[0].rows[0][..n / 2].copy_from_slice(projection);
        match self.reading(m - 1, r - 1, inner).0 {
            0 => {}
            refusal => return refusal != 12,
        }
        level.voters += 1;
        let mut differs = 0;
        for (projected, decoded) in projection.iter_mut().zip(&inner[0].rows[0]) {
            *projected ^= *decoded;
            differs |= *projected;
        }
        if differs != 0 {
            cosets::vote(b, projection, &mut level.votes);
        }
        true
    }
}

fn order_zero(word: &mut [u8]) -> u8 {
    let ones = word.iter().map(|bit| *bit as usize).sum::<usize>();
    let n = word.len();
    if 2 * ones == n {
        return 9;
    }
    word.fill((2 * ones > n) as u8);
    0
}
