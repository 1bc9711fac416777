//! The order 1 reading by a Hadamard transform in place.

/// Replaces the word by the nearest codeword; false on a tie.
pub fn nearest(word: &mut [u8]) -> bool {
    match word.len() {
        2 => nearest_of::<2>(word),
        4 => nearest_of::<4>(word),
        8 => nearest_of::<8>(word),
        16 => nearest_of::<16>(word),
        32 => nearest_of::<32>(word),
        64 => nearest_of::<64>(word),
        128 => nearest_of::<128>(word),
        256 => nearest_of::<256>(word),
        512 => nearest_of::<512>(word),
        _ => nearest_of::<1024>(word),
    }
}

/// Two passes over the correlations: the greatest size, then how often it occurs and the sum of its masks.
fn nearest_of<const N: usize>(word: &mut [u8]) -> bool {
    let word: &mut [u8; N] = word.try_into().expect("a word of N places");
    if is_affine(word) {
        return true;
    }
    let mut values = word.map(|bit| 1 - 2 * bit as i16);
    hadamard(&mut values);
    let greatest = values.iter().fold(0, |greatest, v| v.abs().max(greatest));
    let (mut times, mut masks) = (0i16, 0i16);
    for (u, v) in values.iter().enumerate() {
        let equal = -((v.abs() == greatest) as i16);
        times -= equal;
        masks |= equal & u as i16;
    }
    if times == 1 {
        let mask = masks as usize;
        codeword(mask, (values[mask] < 0) as u8, word);
    }
    times == 1
}

#[inline(always)]
pub fn hadamard<const N: usize>(values: &mut [i16; N]) {
    let mut half = 1;
    while half < N {
        for pair in values.chunks_exact_mut(2 * half) {
            let (low, high) = pair.split_at_mut(half);
            for (a, b) in low.iter_mut().zip(high) {
                (*a, *b) = (*a + *b, *a - *b);
            }
        }
        half *= 2;
    }
}

/// The codeword of a mask: each half repeats the lower one, turned where the mask has that digit.
#[inline(always)]
fn codeword<const N: usize>(mask: usize, turned: u8, word: &mut [u8; N]) {
    word[0] = turned;
    let mut half = 1;
    while half < N {
        let turn = (mask & half != 0) as u8;
        let (low, high) = word[..2 * half].split_at_mut(half);
        for (h, l) in high.iter_mut().zip(low) {
            *h = *l ^ turn;
        }
        half *= 2;
    }
}

/// Whether the word is a codeword of order 1: each half repeats the lower one, or turns it.
#[inline(always)]
pub fn is_affine<const N: usize>(word: &[u8; N]) -> bool {
    let mut half = 1;
    while half < N {
        let turn = word[0] ^ word[half];
        let (low, high) = word[..2 * half].split_at(half);
        if high.iter().zip(low).fold(0, |all, (h, l)| all | h ^ l ^ turn) != 0 {
            return false;
        }
        half *= 2;
    }
    true
}
