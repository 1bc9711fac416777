//! Encoder, message reader and codeword test with one byte for each place: the transform level by level, the test by halves.

use crate::call::{check_code, check_lengths, check_word, Answer};

/// The codeword of a message.
pub fn encode(m: usize, r: usize, message: &[u8], out: &mut [u8]) -> Answer {
    match check_code(m, r) {
        0 => {}
        refusal => return Answer::refused(refusal),
    }
    match check_lengths(message.len(), message_bits(m, r), out.len(), 1 << m) {
        0 => {}
        refusal => return Answer::refused(refusal),
    }
    if let Some(place) = bad_byte(message) {
        return Answer::bad_byte(place);
    }
    let mut bits = message.iter();
    for (mask, coefficient) in out.iter_mut().enumerate() {
        *coefficient = if degree(mask) <= r { *bits.next().unwrap_or(&0) } else { 0 };
    }
    transform(out);
    Answer::default()
}

/// The message of a codeword.
pub fn read_message(m: usize, r: usize, word: &[u8], out: &mut [u8]) -> Answer {
    match check_code(m, r) {
        0 => {}
        refusal => return Answer::refused(refusal),
    }
    match check_lengths(word.len(), 1 << m, out.len(), message_bits(m, r)) {
        0 => {}
        refusal => return Answer::refused(refusal),
    }
    if let Some(place) = bad_byte(word) {
        return Answer::bad_byte(place);
    }
    let mut room = [0; 1024];
    let coefficients = coefficients(word, &mut room);
    if !has_order(r, coefficients) {
        return Answer::refused(13);
    }
    let low = coefficients.iter().enumerate().filter(|(mask, _)| degree(*mask) <= r);
    for (bit, (_, coefficient)) in out.iter_mut().zip(low) {
        *bit = *coefficient;
    }
    Answer::default()
}

/// Yes is 1 in the rounds.
pub fn is_codeword(m: usize, r: usize, word: &[u8]) -> Answer {
    match check_word(m, r, word.len()) {
        0 => {}
        refusal => return Answer::refused(refusal),
    }
    if let Some(place) = bad_byte(word) {
        return Answer::bad_byte(place);
    }
    let mut room = [0; 1024];
    let copy = &mut room[..word.len()];
    copy.copy_from_slice(word);
    Answer { rounds: passes(m, r, copy) as usize, ..Answer::default() }
}

/// The sum of the halves at order r - 1, then the first half at order r. The sum takes the place of the second half.
fn passes(m: usize, r: usize, word: &mut [u8]) -> bool {
    if r == 0 {
        return word.iter().fold(0, |different, bit| different | (bit ^ word[0])) == 0;
    }
    if r == m {
        return true;
    }
    let (first, second) = word.split_at_mut(word.len() / 2);
    for (s, f) in second.iter_mut().zip(&*first) {
        *s ^= *f;
    }
    passes(m - 1, r - 1, second) && passes(m - 1, r, first)
}

fn degree(mask: usize) -> usize {
    mask.count_ones() as usize
}

/// The number of masks of degree at most r.
fn message_bits(m: usize, r: usize) -> usize {
    (0..1 << m).filter(|mask| degree(*mask) <= r).count()
}

pub fn bad_byte(bytes: &[u8]) -> Option<usize> {
    if bytes.iter().fold(0, |all, byte| all | byte) <= 1 {
        return None;
    }
    bytes.iter().position(|byte| *byte > 1)
}

/// The coefficients of a word.
pub fn coefficients<'a>(word: &[u8], room: &'a mut [u8; 1024]) -> &'a [u8] {
    let coefficients = &mut room[..word.len()];
    coefficients.copy_from_slice(word);
    transform(coefficients);
    coefficients
}

/// Coefficients from places, and places from coefficients.
fn transform(word: &mut [u8]) {
    match word.len() {
        2 => transform_of::<2>(word),
        4 => transform_of::<4>(word),
        8 => transform_of::<8>(word),
        16 => transform_of::<16>(word),
        32 => transform_of::<32>(word),
        64 => transform_of::<64>(word),
        128 => transform_of::<128>(word),
        256 => transform_of::<256>(word),
        512 => transform_of::<512>(word),
        _ => transform_of::<1024>(word),
    }
}

fn transform_of<const N: usize>(word: &mut [u8]) {
    let word: &mut [u8; N] = word.try_into().expect("a word of N places");
    let mut half = 1;
    while half < N {
        for pair in word.chunks_exact_mut(2 * half) {
            let (low, high) = pair.split_at_mut(half);
            for (h, l) in high.iter_mut().zip(low) {
                *h ^= *l;
            }
        }
        half *= 2;
    }
}

/// Whether no coefficient has a degree above r.
pub fn has_order(r: usize, coefficients: &[u8]) -> bool {
    let above = |(mask, c): (usize, &u8)| if degree(mask) > r { *c } else { 0 };
    coefficients.iter().enumerate().map(above).fold(0, |all, c| all | c) == 0
}
