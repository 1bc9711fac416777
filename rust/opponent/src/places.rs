//! Places and cosets of packed words: places exchanged by a direction, a digit of the place deleted or inserted.

use crate::word::{numbers, Word, LOW_HALF};

/// The highest one of a direction.
pub fn highest(b: usize) -> usize {
    (usize::BITS - 1 - b.leading_zeros()) as usize
}

/// Exchanges the places that differ in digit i.
#[inline(always)]
pub fn exchange(x: u64, i: usize) -> u64 {
    (x & LOW_HALF[i]) << (1 << i) | x >> (1 << i) & LOW_HALF[i]
}

/// The places exchanged by every digit of b, b below 64.
#[inline(always)]
fn exchanged(mut x: u64, b: usize) -> u64 {
    for i in 0..6 {
        if b >> i & 1 == 1 {
            x = exchange(x, i);
        }
    }
    x
}

/// The 32 places whose digit h is 0, moved together.
#[inline(always)]
pub fn without_digit(x: u64, h: usize) -> u64 {
    let mut x = x & LOW_HALF[h];
    for i in h..5 {
        x = (x | x >> (1 << i)) & LOW_HALF[i + 1];
    }
    x
}

/// 32 places moved apart to those whose digit h is 0.
fn with_digit(x: u64, h: usize) -> u64 {
    let mut x = x & LOW_HALF[5];
    for i in (h..5).rev() {
        x = (x | x << (1 << i)) & LOW_HALF[i];
    }
    x
}

/// The number of `word` that holds the lower half's number q when digit h (6 or above) is inserted as 0.
fn widened(q: usize, h: usize) -> usize {
    let i = h - 6;
    (q >> i) << (i + 1) | q & ((1 << i) - 1)
}

/// The projection of a word of exponent m by b.
pub fn project(m: usize, b: usize, word: &Word, projection: &mut Word) {
    let (h, across, inside) = (highest(b), b >> 6, b & 63);
    if h >= 6 {
        for (q, number) in projection[..numbers(m - 1)].iter_mut().enumerate() {
            let j = widened(q, h);
            *number = word[j] ^ exchanged(word[j ^ across], inside);
        }
        return;
    }
    for (q, number) in projection[..numbers(m - 1)].iter_mut().enumerate() {
        let low = without_digit(word[2 * q] ^ exchanged(word[2 * q], inside), h);
        *number = low;
        if m > 6 {
            let high = without_digit(word[2 * q + 1] ^ exchanged(word[2 * q + 1], inside), h);
            *number |= high << 32;
        }
    }
    if m <= 6 {
        projection[0] &= (1u64 << (1 << (m - 1))) - 1;
    }
}

/// The word of exponent m that has at each place the bit of its coset by b.
pub fn spread(m: usize, b: usize, cosets: &Word, word: &mut Word) {
    let (h, across, inside) = (highest(b), b >> 6, b & 63);
    if h >= 6 {
        for (q, bits) in cosets[..numbers(m - 1)].iter().enumerate() {
            let j = widened(q, h);
            word[j] = *bits;
            word[j ^ across] = exchanged(*bits, inside);
        }
        return;
    }
    for (j, number) in word[..numbers(m)].iter_mut().enumerate() {
        let bits = with_digit(cosets[j / 2] >> (32 * (j % 2)), h);
        *number = bits | exchanged(bits, inside);
    }
}
