//! Encoder, message reader and codeword test.

use crate::call::{check_code, check_lengths, check_word, Answer};
use crate::message::{coefficients, message};
use crate::word::{self, has_order, numbers, pack, transform, unpack};

/// MESSAGE_BITS[m][r] is the number of masks of degree at most r.
const MESSAGE_BITS: [[usize; 11]; 11] = message_bits();

const fn message_bits() -> [[usize; 11]; 11] {
    let mut table = [[1; 11]; 11];
    let mut m = 1;
    while m < 11 {
        let mut r = 1;
        while r < 11 {
            table[m][r] = table[m - 1][r] + table[m - 1][r - 1];
            r += 1;
        }
        m += 1;
    }
    table
}

pub fn encode(m: usize, r: usize, bits: &[u8], out: &mut [u8]) -> Answer {
    match check_code(m, r) {
        0 => {}
        refusal => return Answer::refused(refusal),
    }
    match check_lengths(bits.len(), MESSAGE_BITS[m][r], out.len(), 1 << m) {
        0 => {}
        refusal => return Answer::refused(refusal),
    }
    if let Some(place) = bad_byte(bits) {
        return Answer::bad_byte(place);
    }
    let mut word = [0; 16];
    coefficients(m, r, bits, &mut word);
    transform(m, &mut word[..numbers(m)]);
    unpack(&word, out);
    Answer::default()
}

fn bad_byte(bytes: &[u8]) -> Option<usize> {
    let all = bytes.iter().fold(0, |all, byte| all | byte);
    if all <= 1 {
        return None;
    }
    bytes.iter().position(|byte| *byte > 1)
}

pub fn read_message(m: usize, r: usize, word: &[u8], out: &mut [u8]) -> Answer {
    match check_code(m, r) {
        0 => {}
        refusal => return Answer::refused(refusal),
    }
    match check_lengths(word.len(), 1 << m, out.len(), MESSAGE_BITS[m][r]) {
        0 => {}
        refusal => return Answer::refused(refusal),
    }
    let mut packed = [0; 16];
    if let Err(place) = pack(word, &mut packed) {
        return Answer::bad_byte(place);
    }
    transform(m, &mut packed[..numbers(m)]);
    if !has_order(m, r, &packed[..numbers(m)]) {
        return Answer::refused(13);
    }
    message(m, r, &packed, out);
    Answer::default()
}

/// Yes is 1 in the rounds.
pub fn is_codeword(m: usize, r: usize, word: &[u8]) -> Answer {
    match check_word(m, r, word.len()) {
        0 => {}
        refusal => return Answer::refused(refusal),
    }
    let mut packed = [0; 16];
    if let Err(place) = pack(word, &mut packed) {
        return Answer::bad_byte(place);
    }
    Answer { rounds: word::is_codeword(m, r, &packed) as usize, ..Answer::default() }
}
