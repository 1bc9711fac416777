//! The gap of document 02, request 13: between the greatest and the second absolute correlation of two masks.

use crate::Fault;

/// The sum over the places of +1 for a bit 0 and −1 for a bit 1, negated where mask AND place has an odd number of ones.
fn correlation(word: &[u8], mask: usize) -> i64 {
    let odd = |place: usize| (word[place] as u32 + (mask & place).count_ones()) % 2;
    (0..word.len()).map(|place| 1 - 2 * odd(place) as i64).sum()
}

/// Two masks may have equal sizes.
pub fn gap(word: &[u8], fault: Fault) -> usize {
    let size = |mask: usize| match (correlation(word, mask), fault) {
        (correlation, Fault::SignedCorrelations) => correlation.max(0) as usize,
        (correlation, _) => correlation.unsigned_abs() as usize,
    };
    let mut sizes: Vec<usize> = (0..word.len()).map(size).collect();
    sizes.sort_unstable_by(|a, b| b.cmp(a));
    let second = match fault {
        Fault::SecondIsSmaller => sizes.iter().copied().find(|size| *size < sizes[0]).unwrap_or(0),
        _ => sizes[1],
    };
    sizes[0] - second
}
