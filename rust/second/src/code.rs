//! Masks, monomials, codewords and coefficients (Definition 1 of 004, document 01 "The codes").

use crate::Fault;

/// The masks of degree at most r in the order of the message bits.
pub fn masks(m: usize, r: usize, fault: Fault) -> Vec<usize> {
    let mut found: Vec<usize> = (0..1 << m).filter(|a| degree(*a) <= r).collect();
    if fault == Fault::MasksByDegree {
        found.sort_by_key(|a| (degree(*a), *a));
    }
    if fault == Fault::SeniorFirst {
        found = found.iter().map(|a| turned(m, *a)).collect();
    }
    found
}

pub fn degree(mask: usize) -> usize {
    mask.count_ones() as usize
}

/// The m lowest bits in the other order.
fn turned(m: usize, mask: usize) -> usize {
    (0..m).fold(0, |sum, i| sum | (mask >> i & 1) << (m - 1 - i))
}

/// 1 exactly when A AND p = A.
pub fn monomial(mask: usize, place: usize) -> u8 {
    (mask & place == mask) as u8
}

/// The sum of the monomials whose message bit is 1.
pub fn codeword(m: usize, r: usize, message: &[u8], fault: Fault) -> Vec<u8> {
    let chosen: Vec<usize> =
        masks(m, r, fault).into_iter().zip(message).filter(|(_, bit)| **bit == 1).map(|(mask, _)| mask).collect();
    (0..1 << m).map(|p| chosen.iter().fold(0, |sum, a| sum ^ monomial(*a, p))).collect()
}

/// The sum of the word's bits at all places p with A AND p = p.
pub fn coefficient(word: &[u8], mask: usize) -> u8 {
    (0..=mask).filter(|p| mask & p == *p).fold(0, |sum, p| sum ^ word[p])
}

/// Whether every coefficient of degree above r is 0.
pub fn is_codeword(r: usize, word: &[u8]) -> bool {
    (0..word.len()).filter(|a| degree(*a) > r).all(|a| coefficient(word, a) == 0)
}

/// The coefficients of degree at most r.
pub fn message(m: usize, r: usize, word: &[u8], fault: Fault) -> Vec<u8> {
    masks(m, r, fault).iter().map(|a| coefficient(word, *a)).collect()
}

/// The sum of two words.
pub fn sum(a: &[u8], b: &[u8]) -> Vec<u8> {
    a.iter().zip(b).map(|(x, y)| x ^ y).collect()
}
