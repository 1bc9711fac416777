//! The gap, and what document 02's request 13 promises of it.

use crate::bad_calls::Chooser;
use crate::blocks::{codeword, noisy, MOST_LEAVES};
use crate::call::Call;
use crate::compare::{Comparison, Disagreement, REFUSALS};
use crate::random::Random;
use crate::small::word_of;
use second::code;

/// The gap of a word by the candidate, which must be the second one's.
fn gap(c: &mut Comparison, m: usize, word: &[u8]) -> Result<usize, Disagreement> {
    let effects = c.call(&Call::gap(m, word).with_area((8 << m) + word.iter().sum::<u8>() as usize % 5))?;
    Ok(effects.answer.leaves as usize)
}

fn promised(holds: bool, what: &str, m: usize, word: &[u8]) -> Result<(), Disagreement> {
    if holds {
        return Ok(());
    }
    Err(Disagreement(format!("{what}: {}", Call::gap(m, word))))
}

/// The gap of one word; a tie at order 1 is a gap of 0, and nothing else is.
fn with_tie(c: &mut Comparison, m: usize, word: &[u8]) -> Result<usize, Disagreement> {
    let gap = gap(c, m, word)?;
    let decoded = c.call(&Call::decode(m, 1, 1, 1, word))?;
    promised((decoded.answer.refusal == 9) == (gap == 0), "a gap of 0 and a tie", m, word)?;
    Ok(gap)
}

/// Every word of a small exponent; all changes of it that the gap allows.
pub fn every(c: &mut Comparison, m: usize) -> Result<(), Disagreement> {
    for number in 0..1 << (1 << m) {
        let word = word_of(m, number);
        let gap = with_tie(c, m, &word)?;
        for noise in (0..1 << (1 << m)).map(|number| word_of(m, number)) {
            if 4 * noise.iter().filter(|bit| **bit == 1).count() < gap {
                same_codeword(c, m, &word, &noise)?;
            }
        }
    }
    Ok(())
}

/// Blocks with noise from none to half the places, words by chance, and each with a codeword added.
pub fn sampled(c: &mut Comparison, seed: u64, m: usize, times: usize) -> Result<(), Disagreement> {
    let mut random = Random::new(seed);
    let half = 1 << (m - 1);
    for i in 0..times {
        let clean = codeword(&mut random, m, 1);
        promised(gap(c, m, &clean)? == 1 << m, "a codeword's gap is n", m, &clean)?;
        for word in [noisy(&mut random, m, 1, i * half / (times - 1).max(1)), random.bits(1 << m)] {
            let first = with_tie(c, m, &word)?;
            let moved = gap(c, m, &code::sum(&word, &clean))?;
            promised(first == moved, "a codeword added leaves the gap", m, &word)?;
        }
    }
    Ok(())
}

/// Both calls on the candidate alone.
fn same_codeword(c: &mut Comparison, m: usize, word: &[u8], noise: &[u8]) -> Result<(), Disagreement> {
    let changed = code::sum(word, noise);
    let first = Call::decode(m, 1, 1, MOST_LEAVES, word).run(c.candidate);
    let second = Call::decode(m, 1, 1, MOST_LEAVES, &changed).run(c.candidate);
    c.pairs += 1;
    let same = first.answer.refusal == 0 && second.answer.refusal == 0 && first.out == second.out;
    promised(same && first.out.is_some(), "fewer changed places than a quarter of the gap leave the codeword", m, word)
}

/// As many places changed as the gap allows, and fewer.
pub fn changed(c: &mut Comparison, seed: u64, m: usize, times: usize) -> Result<(), Disagreement> {
    let mut random = Random::new(seed);
    for i in 0..times {
        let word = noisy(&mut random, m, 1, i * (1 << m) / (4 * times));
        let gap = Call::gap(m, &word).run(c.candidate).answer.leaves as usize;
        if gap > 0 {
            let most = (gap - 1) / 4;
            let places = if i % 2 == 0 { most } else { random.below(most + 1) };
            let noise = random.noise(1 << m, places);
            same_codeword(c, m, &word, &noise)?;
        }
    }
    Ok(())
}

/// Calls with bad arguments, in which every refusal of the gap is met.
pub fn bad(c: &mut Comparison, seed: u64, calls: usize) -> Result<(), Disagreement> {
    let mut met = [0; REFUSALS];
    for rarity in [3, 8] {
        let mut chooser = Chooser { random: Random::new(seed + rarity as u64), rarity };
        for _ in 0..calls {
            met[c.call(&chooser.gap_call())?.answer.refusal as usize] += 1;
        }
    }
    match (0..REFUSALS).find(|number| (met[*number] > 0) != [0, 1, 5, 7, 8].contains(number)) {
        None => Ok(()),
        Some(number) => Err(Disagreement(format!("answer {number} of the gap: {} times", met[number]))),
    }
}
