//! Projections, votes by cosets, and the codeword test.
//! For each l below 8 there is a row in which place p stands at p XOR l: with the row of a direction's three lowest
//! digits, both members of eight cosets at a time stand side by side.

use super::codes::{coefficients, has_order};

pub type Rows<T> = [[T; 1024]; 8];

/// The highest one of b as a number, and the rest of b.
fn parts(b: usize) -> (usize, usize) {
    let half = 1 << (usize::BITS - 1 - b.leading_zeros());
    (half, b ^ half)
}

/// Fills the rows from the first, which is the word.
pub fn fill_rows(n: usize, rows: &mut Rows<u8>) {
    let (word, others) = rows.split_first_mut().expect("eight rows");
    for (l, row) in (1..).zip(others) {
        for (to, from) in row[..n].chunks_exact_mut(8).zip(word.chunks_exact(8)) {
            (0..8).for_each(|i| to[i] = from[i ^ l]);
        }
    }
}

/// The sums of the cosets of b, in the order of their numbers.
pub fn project(b: usize, n: usize, rows: &Rows<u8>, projection: &mut [u8]) {
    let (half, low) = parts(b);
    let pairs = rows[0][..n].chunks_exact(2 * half).zip(rows[low & 7][..n].chunks_exact(2 * half));
    for ((pair, other), sums) in pairs.zip(projection.chunks_exact_mut(half)) {
        if half < 8 {
            (0..half).for_each(|q| sums[q] = pair[q] ^ pair[half + (q ^ low)]);
            continue;
        }
        let (first, other) = (pair[..half].as_chunks::<8>().0, other[half..].as_chunks::<8>().0);
        for (c, sum) in sums.as_chunks_mut::<8>().0.iter_mut().enumerate() {
            let (first, other) = (u64::from_ne_bytes(first[c]), u64::from_ne_bytes(other[c ^ low >> 3]));
            *sum = (first ^ other).to_ne_bytes();
        }
    }
}

/// A vote for both places of each coset whose bit is 1.
pub fn vote(b: usize, cosets: &[u8], votes: &mut Rows<i16>) {
    let (half, low) = parts(b);
    for (block, bits) in cosets.chunks_exact(half).enumerate() {
        let (first, other) = (2 * half * block, 2 * half * block + half);
        if half < 8 {
            (0..half).for_each(|q| votes[0][first + q] += bits[q] as i16);
            (0..half).for_each(|q| votes[0][other + (q ^ low)] += bits[q] as i16);
            continue;
        }
        add(&mut votes[0][first..other], bits, 0);
        add(&mut votes[low & 7][other..other + half], bits, low >> 3);
    }
}

/// Adds the bits, eight by eight, to the counts of the eight whose number differs by `exchange`.
fn add(counts: &mut [i16], bits: &[u8], exchange: usize) {
    let counts = counts.as_chunks_mut::<8>().0;
    for (c, eight) in bits.as_chunks::<8>().0.iter().enumerate() {
        for (count, bit) in counts[c ^ exchange].iter_mut().zip(eight) {
            *count += *bit as i16;
        }
    }
}

/// Makes the flips, where 2 × the votes are more than the voters; whether there were any.
pub fn flip(word: &mut [u8], votes: &Rows<i16>, voters: i16) -> bool {
    let mut flipped = 0;
    for (p, bit) in word.iter_mut().enumerate() {
        let count: i16 = (0..8).map(|l| votes[l][p ^ l]).sum();
        let flip = (2 * count > voters) as u8;
        *bit ^= flip;
        flipped |= flip;
    }
    flipped == 1
}

/// Whether no coefficient has a degree above r.
pub fn is_codeword(r: usize, word: &[u8]) -> bool {
    has_order(r, coefficients(word, &mut [0; 1024]))
}
