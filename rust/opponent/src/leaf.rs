//! The order 1 reading: all correlations at once, 16 to a register.

use crate::affine::Affine;
use crate::lanes::Lanes;
use crate::leaf_plain;

/// EIGHT[x] has the 8 correlations of the 8 places in x, one a byte.
static EIGHT: [u64; 256] = eight_correlations();

const fn eight_correlations() -> [u64; 256] {
    let mut table = [0; 256];
    let mut x = 0usize;
    while x < 256 {
        let mut u = 0usize;
        while u < 8 {
            let mut sum = 0i8;
            let mut p = 0;
            while p < 8 {
                let odd = (x >> p & 1) as u32 + (u & p).count_ones();
                sum += 1 - 2 * (odd % 2) as i8;
                p += 1;
            }
            table[x] |= (sum as u8 as u64) << (8 * u);
            u += 1;
        }
        x += 1;
    }
    table
}

/// The nearest word of order 1, none on a tie.
#[inline(always)]
pub fn nearest(m: usize, word: &[u64]) -> Option<Affine> {
    match m {
        5 => nearest_in::<2>(word),
        6 => nearest_in::<4>(word),
        7 => nearest_in::<8>(word),
        _ => leaf_plain::nearest(m, word),
    }
}

/// A word of 16 × R places. The greatest correlation of all, 128, does not fit a signed byte, but its size as an
/// unsigned one does, and such a word is its own nearest codeword.
#[inline(always)]
fn nearest_in<const R: usize>(word: &[u64]) -> Option<Affine> {
    let values = correlations::<R>(word);
    let sizes = values.map(Lanes::sizes);
    let greatest = sizes.iter().fold(sizes[0], |greatest, size| greatest.greater(*size)).greatest();
    let mut masks = [0; 2];
    for (k, size) in sizes.iter().enumerate() {
        masks[k / 4] |= size.equal(greatest) << (16 * (k % 4));
    }
    let only = if R == 8 { only_one_of_two(masks) } else { only_one(masks[0]) };
    only.map(|mask| Affine { mask, turned: negative(&values, mask, word) })
}

#[inline(always)]
fn only_one(x: u64) -> Option<usize> {
    (x & (x - 1) == 0).then(|| x.trailing_zeros() as usize)
}

#[inline(always)]
fn only_one_of_two(x: [u64; 2]) -> Option<usize> {
    match x {
        [low, 0] => only_one(low),
        [0, high] => only_one(high).map(|u| u + 64),
        _ => None,
    }
}

/// Whether that correlation is negative; at the greatest size of all, whether place 0 is 1.
#[inline(always)]
fn negative<const R: usize>(values: &[Lanes; R], mask: usize, word: &[u64]) -> bool {
    match values[mask / 16].bytes()[mask % 16] {
        i8::MIN => word[0] & 1 == 1,
        value => value < 0,
    }
}

/// The correlations of 16 × R places, masks ascending.
#[inline(always)]
fn correlations<const R: usize>(word: &[u64]) -> [Lanes; R] {
    let eight = |k: usize| EIGHT[(word[k / 8] >> (8 * (k % 8))) as usize & 255];
    let mut x: [Lanes; R] = core::array::from_fn(|k| Lanes::of_halves(eight(k), eight(k + R)));
    let mut half = 1;
    while half < R {
        for k in (0..R).filter(|k| k & half == 0) {
            (x[k], x[k + half]) = (x[k].plus(x[k + half]), x[k].minus(x[k + half]));
        }
        half *= 2;
    }
    let mut out = x;
    for k in 0..R / 2 {
        let (low, high) = x[2 * k].regrouped(x[2 * k + 1]);
        (out[k], out[k + R / 2]) = (low.plus(high), low.minus(high));
    }
    out
}
