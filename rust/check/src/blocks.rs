//! Decoding calls on blocks with noise, under many limits.

use crate::call::{Call, Effects};
use crate::compare::{Comparison, Disagreement};
use crate::random::Random;
use second::message_bits;
use second::{code, profiles, Fault};

pub const MOST_LEAVES: usize = 1_000_000;
pub const ROUND_LIMITS: [usize; 5] = [1, 2, 3, 4, 16];

/// A codeword by chance.
pub fn codeword(random: &mut Random, m: usize, r: usize) -> Vec<u8> {
    code::codeword(m, r, &random.bits(message_bits(m, r)), Fault::None)
}

/// A codeword by chance with so many wrong places.
pub fn noisy(random: &mut Random, m: usize, r: usize, wrong: usize) -> Vec<u8> {
    code::sum(&codeword(random, m, r), &random.noise(1 << m, wrong))
}

/// One block under the largest leaf limit, then with the limit at, above and below its count.
pub fn block(c: &mut Comparison, m: usize, r: usize, rounds: usize, word: &[u8]) -> Result<Effects, Disagreement> {
    let area = (8 << m) + word.iter().sum::<u8>() as usize % 5;
    let effects = c.call(&Call::decode(m, r, rounds, MOST_LEAVES, word).with_area(area))?;
    let count = effects.answer.leaves as usize;
    if effects.answer.refusal != 12 {
        for limit in [count, count + 1, count.saturating_sub(1)] {
            c.call(&Call::decode(m, r, rounds, limit, word).with_area(area))?;
        }
    }
    Ok(effects)
}

/// Blocks with noise from none to half the places, the round limits in turn.
pub fn sampled(c: &mut Comparison, seed: u64, m: usize, r: usize, blocks: usize) -> Result<(), Disagreement> {
    let mut random = Random::new(seed);
    let half = 1 << (m - 1);
    for i in 0..blocks {
        let word = noisy(&mut random, m, r, i * half / (blocks - 1).max(1));
        block(c, m, r, ROUND_LIMITS[i % ROUND_LIMITS.len()], &word)?;
    }
    Ok(())
}

/// Blocks with few wrong places under one leaf limit: for orders whose counts are large.
pub fn limited(c: &mut Comparison, seed: u64, m: usize, r: usize, leaves: usize) -> Result<(), Disagreement> {
    let mut random = Random::new(seed);
    for wrong in [0, 1, 3] {
        let word = noisy(&mut random, m, r, wrong.min(1 << (m - 1)));
        let rounds = random.one_of(&ROUND_LIMITS);
        c.call(&Call::decode(m, r, rounds, leaves, &word))?;
    }
    Ok(())
}

/// Blocks under a profile, noise from none to half the places.
pub fn by_profile(c: &mut Comparison, seed: u64, number: usize, blocks: usize) -> Result<(), Disagreement> {
    let mut random = Random::new(seed);
    let profile = profiles::profile(number).expect("a profile of the table");
    for i in 0..blocks {
        let wrong = (i << (profile.m - 1)) / blocks.max(1);
        let word = noisy(&mut random, profile.m, profile.r, wrong);
        let area = (8 << profile.m) + random.below(4);
        let effects = c.call(&Call::decode_profile(number, &word).with_area(area))?;
        assert_ne!(effects.answer.refusal, 12, "no profile can meet 12");
    }
    Ok(())
}
