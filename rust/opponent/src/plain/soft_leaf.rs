//! The order 1 reading of confidences by a Hadamard transform in place.

/// Replaces the values by the codeword of greatest correlation, -1 where a bit is 1 and 0 elsewhere; false on a tie. `zeros` says whether a value
/// may be 0.
pub fn nearest(values: &mut [i32], zeros: bool) -> bool {
    match values.len() {
        2 => nearest_of::<2>(values, zeros),
        4 => nearest_of::<4>(values, zeros),
        8 => nearest_of::<8>(values, zeros),
        16 => nearest_of::<16>(values, zeros),
        32 => nearest_of::<32>(values, zeros),
        64 => nearest_of::<64>(values, zeros),
        128 => nearest_of::<128>(values, zeros),
        256 => nearest_of::<256>(values, zeros),
        512 => nearest_of::<512>(values, zeros),
        _ => nearest_of::<1024>(values, zeros),
    }
}

fn nearest_of<const N: usize>(values: &mut [i32], zeros: bool) -> bool {
    let values: &mut [i32; N] = values.try_into().expect("a block of N places");
    if !zeros && signs_are_codeword(values) {
        values.iter_mut().for_each(|value| *value >>= 31);
        return true;
    }
    let odd = N > 32 && N.trailing_zeros() % 2 == 1;
    if N > 32 {
        two_levels_at_once(values);
    } else {
        levels(values);
    }
    match if odd { peak_of_pairs(values) } else { peak(values) } {
        None => false,
        Some((mask, sign)) => {
            codeword(mask, sign, values);
            true
        }
    }
}

/// Whether the signs are a codeword of order 1. If no value is 0, its correlation is the sum of the sizes, and no other one's is.
#[inline(always)]
fn signs_are_codeword<const N: usize>(values: &[i32; N]) -> bool {
    let mut half = 1;
    while half < N {
        let turn = values[0] ^ values[half];
        let (low, high) = values[..2 * half].split_at(half);
        if high.iter().zip(low).fold(0, |all, (h, l)| all | h ^ l ^ turn) < 0 {
            return false;
        }
        half *= 2;
    }
    true
}

/// The place of the greatest size: one pass for it, one for how often it occurs and where.
#[inline(always)]
fn only_greatest(sizes: impl Iterator<Item = i32> + Clone) -> Option<usize> {
    let greatest = sizes.clone().fold(0, |greatest, size| size.max(greatest));
    let (mut times, mut places) = (0, 0);
    for (place, size) in sizes.enumerate() {
        let equal = -((size == greatest) as i32);
        times -= equal;
        places |= equal & place as i32;
    }
    (times == 1).then_some(places as usize)
}

/// The mask of greatest correlation and -1 where that is negative; none on a tie.
#[inline(always)]
fn peak<const N: usize>(values: &[i32; N]) -> Option<(usize, i32)> {
    let mask = only_greatest(values.iter().map(|value| value.abs()))?;
    Some((mask, values[mask] >> 31))
}

/// The same where the last level is not made: of x + y and x - y the greater has size |x| + |y|, and both have it where one of them is 0.
#[inline(always)]
fn peak_of_pairs<const N: usize>(values: &[i32; N]) -> Option<(usize, i32)> {
    let (low, high) = values.split_at(N / 2);
    let mask = only_greatest(low.iter().zip(high).map(|(x, y)| x.abs() + y.abs()))?;
    match (low[mask], high[mask]) {
        (0, _) | (_, 0) => None,
        (x, y) if (x ^ y) < 0 => Some((mask + N / 2, (x - y) >> 31)),
        (x, y) => Some((mask, (x + y) >> 31)),
    }
}

/// The transform level by level, which is held in registers.
#[inline(always)]
fn levels<const N: usize>(values: &mut [i32; N]) {
    let mut half = 1;
    while half < N {
        for pair in values.chunks_exact_mut(2 * half) {
            let (low, high) = pair.split_at_mut(half);
            for (a, b) in low.iter_mut().zip(high) {
                (*a, *b) = (*a + *b, *a - *b);
            }
        }
        half *= 2;
    }
}

/// Two levels at once: of four places, then of four rows of 4, 16, .. places. Where the number of levels is odd the last is left.
#[inline(always)]
fn two_levels_at_once<const N: usize>(values: &mut [i32; N]) {
    for four in values.as_chunks_mut::<4>().0 {
        *four = four_sums(*four);
    }
    let mut half = 4;
    while 4 * half <= N {
        for rows in values.chunks_exact_mut(4 * half) {
            let (low, high) = rows.split_at_mut(2 * half);
            let ((a, b), (c, d)) = (low.split_at_mut(half), high.split_at_mut(half));
            for (((a, b), c), d) in a.iter_mut().zip(b).zip(c).zip(d) {
                [*a, *b, *c, *d] = four_sums([*a, *b, *c, *d]);
            }
        }
        half *= 4;
    }
}

#[inline(always)]
fn four_sums([a, b, c, d]: [i32; 4]) -> [i32; 4] {
    let (ab, cd, less_b, less_d) = (a + b, c + d, a - b, c - d);
    [ab + cd, less_b + less_d, ab - cd, less_b - less_d]
}

/// The codeword of a mask: each half repeats the lower one, turned where the mask has that digit.
#[inline(always)]
fn codeword<const N: usize>(mask: usize, turned: i32, word: &mut [i32; N]) {
    word[0] = turned;
    let mut half = 1;
    while half < N {
        let turn = -((mask & half != 0) as i32);
        let (low, high) = word[..2 * half].split_at_mut(half);
        for (h, l) in high.iter_mut().zip(low) {
            *h = *l ^ turn;
        }
        half *= 2;
    }
}
