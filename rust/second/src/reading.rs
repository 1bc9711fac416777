//! A reading at order r (document 01 "A reading at order r", document 02 request 5, 004 Algorithms 1 and 2).

use crate::code;
use crate::direction::{self, Numbering};
use crate::leaves::{AboveLimit, Leaves};
use crate::Fault;
use std::collections::HashMap;
use std::rc::Rc;

/// Why a reading gives no codeword.
#[derive(Clone, Copy, PartialEq, Eq, Debug)]
pub enum Failure {
    Tie,
    Flipping,
    Unsettled,
}

pub struct Reading {
    pub result: Result<Vec<u8>, Failure>,
    pub rounds: usize,
}

type Cosets = Rc<Vec<Vec<(usize, usize)>>>;

/// Lists that are made once and used by every reading.
#[derive(Default)]
pub struct Lists {
    cosets: HashMap<(usize, Numbering), Cosets>,
    first_order: HashMap<usize, Rc<Vec<Vec<u8>>>>,
    signs: HashMap<usize, Rc<Vec<Vec<i16>>>>,
}

impl Lists {
    /// The cosets of every direction from 1.
    pub fn cosets(&mut self, m: usize, numbering: Numbering) -> Cosets {
        let make = || Rc::new((1..1 << m).map(|b| direction::cosets(m, b, numbering)).collect());
        self.cosets.entry((m, numbering)).or_insert_with(make).clone()
    }

    /// All codewords of order 1, masks ascending.
    fn first_order(&mut self, m: usize) -> Rc<Vec<Vec<u8>>> {
        let bits = |number: usize| (0..=m).map(|i| (number >> i & 1) as u8).collect::<Vec<u8>>();
        let make = || Rc::new((0..2 << m).map(|i| code::codeword(m, 1, &bits(i), Fault::None)).collect());
        self.first_order.entry(m).or_insert_with(make).clone()
    }

    /// For each mask u the places' signs: −1 where u AND p has an odd number of ones.
    pub fn signs(&mut self, m: usize) -> Rc<Vec<Vec<i16>>> {
        let sign = |u: usize, p: usize| 1 - 2 * (code::degree(u & p) % 2) as i16;
        let make = || Rc::new((0..1 << m).map(|u| (0..1 << m).map(|p| sign(u, p)).collect()).collect());
        self.signs.entry(m).or_insert_with(make).clone()
    }
}

/// What stays the same in all readings of one call.
pub struct Reader<'a> {
    pub lists: &'a mut Lists,
    pub round_limit: usize,
    pub leaves: Leaves,
    pub fault: Fault,
}

impl Reader<'_> {
    /// The reading of a word; `depth` is 0 for the reading asked for.
    pub fn reading(&mut self, m: usize, r: usize, word: &[u8], depth: usize) -> Result<Reading, AboveLimit> {
        match r {
            0 => Ok(self.order_zero(word)),
            1 => self.order_one(m, word),
            _ => self.order_two_and_above(m, r, word, depth),
        }
    }

    fn order_zero(&self, word: &[u8]) -> Reading {
        let ones = word.iter().filter(|bit| **bit == 1).count();
        let zeros = word.len() - ones;
        let tie = ones == zeros && self.fault != Fault::OrderZeroTieZeros;
        let nearest = vec![(ones > zeros) as u8; word.len()];
        Reading { result: if tie { Err(Failure::Tie) } else { Ok(nearest) }, rounds: 0 }
    }

    /// Every codeword is tried.
    fn order_one(&mut self, m: usize, word: &[u8]) -> Result<Reading, AboveLimit> {
        self.leaves.add(1)?;
        let codewords = self.lists.first_order(m);
        let distances: Vec<u16> = codewords.iter().map(|c| distance(c, word)).collect();
        let least = *distances.iter().min().unwrap();
        let nearest: Vec<usize> = (0..codewords.len()).filter(|i| distances[*i] == least).collect();
        let tie = nearest.len() > 1 && self.fault != Fault::LowerMask;
        let result = if tie { Err(Failure::Tie) } else { Ok(codewords[nearest[0]].clone()) };
        Ok(Reading { result, rounds: 0 })
    }

    fn order_two_and_above(&mut self, m: usize, r: usize, word: &[u8], depth: usize) -> Result<Reading, AboveLimit> {
        let mut word = word.to_vec();
        for round in 1..=self.round_limit {
            let before = self.leaves.count();
            self.leaves.round_starts(depth, round);
            let new = self.round(m, r, &word, depth)?;
            self.leaves.round_ends(depth, round);
            if new == word {
                return Ok(Reading { result: self.settled(r, word), rounds: round });
            }
            word = new;
            if self.fault == Fault::OneRealRound && round < self.round_limit {
                let one_round = self.leaves.count() - before;
                self.leaves.add(one_round)?;
                return Ok(Reading { result: self.settled(r, word), rounds: round + 1 });
            }
        }
        let accepted = self.fault == Fault::CodewordAtRoundLimit && code::is_codeword(r, &word);
        let result = if accepted { Ok(word) } else { Err(Failure::Flipping) };
        Ok(Reading { result, rounds: self.round_limit })
    }

    fn settled(&self, r: usize, word: Vec<u8>) -> Result<Vec<u8>, Failure> {
        if code::is_codeword(r, &word) || self.fault == Fault::SettledUntested {
            return Ok(word);
        }
        Err(Failure::Unsettled)
    }

    /// The word after one round.
    fn round(&mut self, m: usize, r: usize, word: &[u8], depth: usize) -> Result<Vec<u8>, AboveLimit> {
        let projected_by = self.lists.cosets(m, self.numbering(Fault::LowestOneInProjection));
        let voted_by = self.lists.cosets(m, self.numbering(Fault::LowestOneInVote));
        let mut votes = vec![0usize; word.len()];
        let mut voters = 0;
        let mut new = word.to_vec();
        for (cosets, vote_cosets) in projected_by.iter().zip(voted_by.iter()) {
            let during = self.fault == Fault::FlipsDuringRound;
            let projected = direction::projection(if during { &new } else { word }, cosets);
            let decoded = match self.reading(m - 1, r - 1, &projected, depth + 1)?.result {
                Ok(decoded) => decoded,
                Err(_) if self.fault == Fault::AbstainerVotesZeros => vec![0; projected.len()],
                Err(_) => continue,
            };
            voters += 1;
            for (number, (p, q)) in vote_cosets.iter().enumerate() {
                if decoded[number] != projected[number] {
                    votes[*p] += 1;
                    votes[*q] += 1;
                }
            }
            if during {
                new = self.flipped(word, &votes, voters);
            }
        }
        Ok(self.flipped(word, &votes, voters))
    }

    /// A place flips exactly when 2 × its votes is more than the number of directions that did not abstain.
    fn flipped(&self, word: &[u8], votes: &[usize], voters: usize) -> Vec<u8> {
        let flips = |votes: usize| match self.fault {
            Fault::AbstainersCounted => 2 * votes > word.len() - 1,
            Fault::EqualityFlips => 2 * votes >= voters,
            _ => 2 * votes > voters,
        };
        word.iter().zip(votes).map(|(bit, votes)| bit ^ flips(*votes) as u8).collect()
    }

    /// The numbering where `part` of the decoder is at work.
    fn numbering(&self, part: Fault) -> Numbering {
        if self.fault == part || self.fault == Fault::LowestOneEverywhere {
            return Numbering::Lowest;
        }
        Numbering::Highest
    }
}

/// The number of places where two words differ.
fn distance(a: &[u8], b: &[u8]) -> u16 {
    a.iter().zip(b).map(|(x, y)| (x ^ y) as u16).sum()
}
