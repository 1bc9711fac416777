//! One round at order 2: every direction's projection is read at order 1 and its votes are counted.

use crate::leaf;
use crate::places::{exchange, highest, without_digit};
use crate::workspace::{Exchanged, Level};

/// Counts the votes of all directions, and those that do not abstain; m at least 3.
pub fn round(m: usize, level: &mut Level, exchanged: &mut Exchanged) {
    match m {
        7 => round_of::<2>(m, level, exchanged),
        8 => round_of::<4>(m, level, exchanged),
        9 => round_of::<8>(m, level, exchanged),
        10 => round_of::<16>(m, level, exchanged),
        6 => round_of::<1>(6, level, exchanged),
        _ => round_of::<1>(m, level, exchanged),
    }
}

/// A word of W numbers. Directions go by eights, and direction 0 votes for nothing.
#[inline(always)]
fn round_of<const W: usize>(m: usize, level: &mut Level, exchanged: &mut Exchanged) {
    let word: &[u64; W] = level.word[..W].try_into().expect("a word of W numbers");
    fill_exchanged(m, word, exchanged);
    let mut voters = 0;
    for eight in 0..1usize << (m - 3) {
        let mut cast = [[0; W]; 8];
        for (i, vote) in cast.iter_mut().enumerate() {
            let b = 8 * eight + i;
            if b > 0 {
                *vote = direction_votes(m, b, word, exchanged, &mut voters);
            }
        }
        level.votes.add_eight(m, &cast);
    }
    level.voters = voters;
}

/// The word with its places exchanged by each b below 64.
#[inline(always)]
fn fill_exchanged<const W: usize>(m: usize, word: &[u64; W], exchanged: &mut Exchanged) {
    for (number, row) in word.iter().zip(exchanged.iter_mut()) {
        row[0] = *number;
        for i in 0..m.min(6) {
            for b in 0..1 << i {
                row[b + (1 << i)] = exchange(row[b], i);
            }
        }
    }
}

/// The places where direction b votes to flip; it is one of the voters where it does not abstain.
#[inline(always)]
fn direction_votes<const W: usize>(
    m: usize,
    b: usize,
    word: &[u64; W],
    exchanged: &Exchanged,
    voters: &mut usize,
) -> [u64; W] {
    let (h, across) = (highest(b), b >> 6);
    let sums: [u64; W] = core::array::from_fn(|j| word[j] ^ exchanged[j ^ across][b & 63]);
    match leaf::nearest(m - 1, &cosets(h, &sums)) {
        None => [0; W],
        Some(nearest) => {
            *voters += 1;
            let decoded = nearest.spread(b, h);
            core::array::from_fn(|j| sums[j] ^ decoded.number(j))
        }
    }
}

/// The projection, from the sums at every place.
#[inline(always)]
fn cosets<const W: usize>(h: usize, sums: &[u64; W]) -> [u64; 8] {
    let mut projection = [0; 8];
    if W == 1 {
        projection[0] = without_digit(sums[0], h);
        return projection;
    }
    for q in 0..W / 2 {
        projection[q] = match h.checked_sub(6) {
            Some(i) => sums[(q >> i) << (i + 1) | q & ((1 << i) - 1)],
            None => without_digit(sums[2 * q], h) | without_digit(sums[2 * q + 1], h) << 32,
        };
    }
    projection
}
