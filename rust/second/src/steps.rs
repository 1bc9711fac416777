//! The codeword test by the steps of document 02, request 8.

use crate::code::sum;
use crate::Fault;

/// Whether a word of exponent m passes at order r.
pub fn passes(m: usize, r: usize, word: &[u8], fault: Fault) -> bool {
    // "at r = 0 all places are equal"
    if r == 0 {
        return fault == Fault::OrderZeroUntested || word.iter().all(|bit| *bit == word[0]);
    }
    // "at r = m every word passes"
    if r == m {
        return true;
    }
    // "Add the two halves and test that sum at order r − 1, then test the first half at order r"
    let (first, second) = word.split_at(word.len() / 2);
    let lower = if fault == Fault::SumAtOrder { r } else { r - 1 };
    let sum_passes = passes(m - 1, lower, &sum(first, second), fault);
    sum_passes && (fault == Fault::FirstHalfUntested || passes(m - 1, r, first, fault))
}
