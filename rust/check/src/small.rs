//! Every word of small exponents, under every order and many limits.

use crate::blocks::{block, MOST_LEAVES, ROUND_LIMITS};
use crate::call::Call;
use crate::compare::{Comparison, Disagreement};

/// The word whose places are the digits of a number.
pub fn word_of(m: usize, number: usize) -> Vec<u8> {
    (0..1 << m).map(|p| (number >> p & 1) as u8).collect()
}

pub fn every_word(c: &mut Comparison, m: usize) -> Result<(), Disagreement> {
    for r in 0..=m {
        for number in 0..1 << (1 << m) {
            for rounds in ROUND_LIMITS {
                block(c, m, r, rounds, &word_of(m, number))?;
            }
        }
    }
    Ok(())
}

/// Every word of exponent 4 at one order, under the largest leaf limit.
pub fn every_word_of_4(c: &mut Comparison, r: usize, rounds: usize) -> Result<(), Disagreement> {
    for number in 0..1 << 16 {
        c.call(&Call::decode(4, r, rounds, MOST_LEAVES, &word_of(4, number)))?;
    }
    Ok(())
}
