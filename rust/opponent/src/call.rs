//! Answers, and the checks of a call's arguments.

#[derive(Clone, Copy, PartialEq, Eq, Debug, Default)]
pub struct Answer {
    pub refusal: u8,
    pub rounds: usize,
    pub leaves: usize,
    /// The places where the accepted word differs from the received one.
    pub mended: usize,
    /// The place that 8, 17 or 18 names.
    pub place: usize,
}

/// The places where two words differ.
pub fn differing(word: &[u8], out: &[u8]) -> usize {
    word.iter().zip(out).map(|(a, b)| (a ^ b) as usize).sum()
}

impl Answer {
    pub fn refused(refusal: u8) -> Answer {
        Answer { refusal, ..Answer::default() }
    }

    pub fn bad_byte(place: usize) -> Answer {
        Answer { place, ..Answer::refused(8) }
    }
}

/// 1 and 2, or 0.
pub fn check_code(m: usize, r: usize) -> u8 {
    if !(1..=10).contains(&m) {
        1
    } else if r > m {
        2
    } else {
        0
    }
}

/// 1, 2 and 5 for a word by itself, or 0.
pub fn check_word(m: usize, r: usize, length: usize) -> u8 {
    match check_code(m, r) {
        0 if length != 1 << m => 5,
        refusal => refusal,
    }
}

/// 5 and 6, or 0.
pub fn check_lengths(input: usize, right_input: usize, out: usize, right_out: usize) -> u8 {
    if input != right_input {
        5
    } else if out != right_out {
        6
    } else {
        0
    }
}

/// 3 and 4, or 0.
#[inline(always)]
pub fn check_limits(rounds: usize, leaves: usize) -> u8 {
    if !(1..=16).contains(&rounds) {
        3
    } else if !(1..=1_000_000).contains(&leaves) {
        4
    } else {
        0
    }
}

/// 1 to 6, or 0.
pub fn check_decoding<T>(m: usize, r: usize, rounds: usize, leaves: usize, word: &[T], out: &[u8]) -> u8 {
    match check_code(m, r) {
        0 => {}
        refusal => return refusal,
    }
    match check_limits(rounds, leaves) {
        0 => {}
        refusal => return refusal,
    }
    check_lengths(word.len(), 1 << m, out.len(), 1 << m)
}
