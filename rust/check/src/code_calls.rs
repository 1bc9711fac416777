//! Encoder, message reader and codeword test.

use crate::blocks;
use crate::call::Call;
use crate::compare::{Comparison, Disagreement};
use crate::random::Random;
use crate::small::word_of;
use second::{code, message_bits};

/// A message encoded, and read again from the codeword.
fn there_and_back(c: &mut Comparison, m: usize, r: usize, message: Vec<u8>) -> Result<(), Disagreement> {
    let out = message.len();
    let effects = c.call(&Call::Encode { m, r, message, out: 1 << m })?;
    let word = effects.out.expect("the output of a right encoder");
    word_calls(c, m, r, word, out)
}

/// A word tested and read.
fn word_calls(c: &mut Comparison, m: usize, r: usize, word: Vec<u8>, out: usize) -> Result<(), Disagreement> {
    c.call(&Call::IsCodeword { m, r, word: word.clone() })?;
    c.call(&Call::ReadMessage { m, r, word, out })?;
    Ok(())
}

/// All messages and all words of a small exponent.
pub fn every(c: &mut Comparison, m: usize) -> Result<(), Disagreement> {
    for r in 0..=m {
        let k = message_bits(m, r);
        for number in 0..1 << k {
            there_and_back(c, m, r, word_of(m, number)[..k].to_vec())?;
        }
        for number in 0..1 << (1 << m) {
            word_calls(c, m, r, word_of(m, number), k)?;
        }
    }
    Ok(())
}

/// Messages, codewords with few wrong places, and words by chance.
pub fn sampled(c: &mut Comparison, seed: u64, m: usize, times: usize) -> Result<(), Disagreement> {
    let mut random = Random::new(seed);
    for r in 0..=m {
        let k = message_bits(m, r);
        for i in 0..times {
            let message = random.bits(k);
            there_and_back(c, m, r, message)?;
            let word = blocks::noisy(&mut random, m, r, i % 3);
            word_calls(c, m, r, word, k)?;
            let word = random.bits(1 << m);
            word_calls(c, m, r, word, k)?;
        }
    }
    Ok(())
}

/// Every word of a small exponent, tested at every order.
pub fn every_test(c: &mut Comparison, m: usize) -> Result<(), Disagreement> {
    for r in 0..=m {
        for number in 0..1 << (1 << m) {
            c.call(&Call::IsCodeword { m, r, word: word_of(m, number) })?;
        }
    }
    Ok(())
}

/// A codeword with one wrong place, or one whose first half or whose sum of halves is such a word: each step of the test meets words that it
/// alone refuses.
fn wrong_at_a_step(random: &mut Random, m: usize, r: usize) -> Vec<u8> {
    if r == 0 || r == m || random.once_in(4) {
        return blocks::noisy(random, m, r, 1);
    }
    let (first, sum) = if random.once_in(2) {
        (wrong_at_a_step(random, m - 1, r), blocks::codeword(random, m - 1, r - 1))
    } else {
        (blocks::codeword(random, m - 1, r), wrong_at_a_step(random, m - 1, r - 1))
    };
    let second = code::sum(&first, &sum);
    [first, second].concat()
}

/// Codewords, words with one wrong place, at a step or anywhere, and words by chance, tested at every order.
pub fn tests(c: &mut Comparison, seed: u64, m: usize, times: usize) -> Result<(), Disagreement> {
    let mut random = Random::new(seed);
    for r in 0..=m {
        for _ in 0..times {
            let words = [
                blocks::codeword(&mut random, m, r),
                blocks::noisy(&mut random, m, r, 1),
                wrong_at_a_step(&mut random, m, r),
                random.bits(1 << m),
            ];
            for word in words {
                c.call(&Call::IsCodeword { m, r, word })?;
            }
        }
    }
    Ok(())
}

/// Each single message bit: every monomial by itself.
pub fn monomials(c: &mut Comparison, m: usize) -> Result<(), Disagreement> {
    for r in 0..=m {
        let k = message_bits(m, r);
        for i in 0..k {
            let message = (0..k).map(|j| (i == j) as u8).collect();
            there_and_back(c, m, r, message)?;
        }
    }
    Ok(())
}
