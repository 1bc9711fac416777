//! The order 1 reading for the lengths that `leaf` does not hold in registers.

use crate::affine::Affine;

/// The nearest word of order 1, none on a tie.
pub fn nearest(m: usize, word: &[u64]) -> Option<Affine> {
    let mut room = [0i16; 1024];
    let values = &mut room[..1 << m];
    for (p, value) in values.iter_mut().enumerate() {
        *value = 1 - 2 * (word[p / 64] >> (p % 64) & 1) as i16;
    }
    hadamard(values);
    let greatest = values.iter().map(|v| v.abs()).max().unwrap_or(0);
    let times: i16 = values.iter().map(|v| (v.abs() == greatest) as i16).sum();
    if times > 1 {
        return None;
    }
    let mask = values.iter().position(|v| v.abs() == greatest)?;
    Some(Affine { mask, turned: values[mask] < 0 })
}

/// The Hadamard transform in place.
fn hadamard(values: &mut [i16]) {
    let mut half = 1;
    while half < values.len() {
        for pair in values.chunks_exact_mut(2 * half) {
            let (low, high) = pair.split_at_mut(half);
            for (a, b) in low.iter_mut().zip(high) {
                (*a, *b) = (*a + *b, *a - *b);
            }
        }
        half *= 2;
    }
}
