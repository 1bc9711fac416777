//! The gap at order 1, by the same transform as a reading.

use super::codes::bad_byte;
use super::leaf::{hadamard, is_affine};
use crate::call::{check_word, Answer};

/// The gap stands in the leaf count. There is no area, so 7 cannot occur.
pub fn gap(m: usize, word: &[u8]) -> Answer {
    match check_word(m, 1, word.len()) {
        0 => {}
        refusal => return Answer::refused(refusal),
    }
    if let Some(place) = bad_byte(word) {
        return Answer::bad_byte(place);
    }
    let gap = match m {
        1 => gap_of::<2>(word),
        2 => gap_of::<4>(word),
        3 => gap_of::<8>(word),
        4 => gap_of::<16>(word),
        5 => gap_of::<32>(word),
        6 => gap_of::<64>(word),
        7 => gap_of::<128>(word),
        8 => gap_of::<256>(word),
        9 => gap_of::<512>(word),
        _ => gap_of::<1024>(word),
    };
    Answer { leaves: gap, ..Answer::default() }
}

/// Two passes over the correlations: the greatest size, then how often it occurs and the greatest of the smaller ones.
fn gap_of<const N: usize>(word: &[u8]) -> usize {
    let word: &[u8; N] = word.try_into().expect("a word of N places");
    if is_affine(word) {
        return N;
    }
    let mut values = word.map(|bit| 1 - 2 * bit as i16);
    hadamard(&mut values);
    let greatest = values.iter().fold(0, |greatest, v| v.abs().max(greatest));
    let (mut times, mut second) = (0i16, 0i16);
    for v in values {
        times += (v.abs() == greatest) as i16;
        second = second.max(if v.abs() == greatest { 0 } else { v.abs() });
    }
    if times > 1 {
        0
    } else {
        (greatest - second) as usize
    }
}
